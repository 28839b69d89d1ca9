// Sheets in the crews' calendars, document 02, §10: a finished board as an iCalendar text. Included behind plain.c.

typedef struct { u32 year, month, day, hour, minute; } stamp;
typedef struct { refusal refused; size_t length; } written;
enum { AROUND = 74, EVENT_FIXED = 118 };

static bool is_leap(u32 year) { return (year % 4 == 0 && year % 100 != 0) || year % 400 == 0; }

static u32 days_in(u32 year, u32 month) {
    static const u8 days[13] = {0, 31, 28, 31, 30, 31, 30, 31, 31, 30, 31, 30, 31};
    return month > 12 ? 0 : days[month] + (month == 2 && is_leap(year));
}

static bool is_origin(const stamp *s) {
    return s->year >= 1970 && s->year <= 2099 && s->day >= 1 && s->day <= days_in(s->year, s->month) && s->hour < 24 && s->minute < 60;
}

// What minute m shows where minute 0 is the origin.
static stamp shown(const stamp *o, u32 m) {
    u32 minute = o->hour * 60 + o->minute + m % 1440, days = o->day - 1 + m / 1440 + minute / 1440;
    stamp s = {o->year, 1, 0, minute % 1440 / 60, minute % 60};
    for (u32 k = 1; k < o->month; k++) days += days_in(o->year, k);
    for (; days >= 365u + is_leap(s.year); s.year++) days -= 365 + is_leap(s.year);
    for (; days >= days_in(s.year, s.month); s.month++) days -= days_in(s.year, s.month);
    s.day = days + 1;
    return s;
}

static u32 digits_of(u32 n) {
    u32 k = 1;
    for (; n >= 10; n /= 10) k++;
    return k;
}

static u8 *add(u8 *out, const char *text) {
    size_t n = strlen(text);
    memcpy(out, text, n);
    return out + n;
}

static u8 *add_number(u8 *out, u32 n) {
    u8 *end = out + digits_of(n), *at = end;
    do *--at = '0' + n % 10; while (n /= 10);
    return end;
}

static void two_digits(char *at, u32 n) { at[0] = '0' + n / 10 % 10, at[1] = '0' + n % 10; }

static u8 *add_event(u8 *out, u32 p, u32 code, const stamp *s) {
    char moment[] = "YYYYMMDDTHHMM00Z";
    two_digits(moment, s->year / 100), two_digits(moment + 2, s->year);
    two_digits(moment + 4, s->month), two_digits(moment + 6, s->day);
    two_digits(moment + 9, s->hour), two_digits(moment + 11, s->minute);
    out = add_number(add(out, "BEGIN:VEVENT\r\nUID:"), p);
    out = add(add(add(out, "-"), moment), "\r\nDTSTAMP:");
    out = add(add(add(out, moment), "\r\nDTSTART:"), moment);
    out = add_number(add(out, "\r\nSUMMARY:Point "), p);
    return add(add_number(add(out, " "), code), "\r\nEND:VEVENT\r\n");
}

static written write_calendar(const plan *p, const board *b, const stamp *origin, u8 *out, size_t room) {
    refusal found = ended(p, b);
    if (found.number) return (written){found, 0};
    if (!is_origin(origin)) return (written){{51, 0}, 0};
    u32 n = points_of(p);
    size_t length = AROUND;
    for (u32 i = 0; i < n; i++) length += EVENT_FIXED + 2 * digits_of(i) + digits_of(p->records[i].code);
    if (room < length) return (written){{52, 0}, 0};
    u8 *at = add(out, "BEGIN:VCALENDAR\r\nVERSION:2.0\r\nPRODID:-//Ponds//Sheets//EN\r\n");
    for (u32 i = 0; i < n; i++) {
        stamp s = shown(origin, b->minutes[i]);
        at = add_event(at, i, p->records[i].code, &s);
    }
    at = add(at, "END:VCALENDAR\r\n");
    return (written){{0, 0}, at - out};
}
