// Faults of the calls that read or set, of the libraries of include/uip.h and of uip_both.h, which another file includes. Their numbers
// follow those of that file, BEFORE in number.
#define FAULT (PLANT - BEFORE)

unsigned __real_uip_set_value(uip_device *d, size_t number, const void *text, size_t len);
uip_number __real_uip_hits(uip_device *d, const void *name, size_t len);
uip_number __real_uip_is_idle(uip_device *d);
uip_row __real_uip_connection(uip_device *d, size_t slot);
uip_query_text __real_uip_query(uip_device *d, const void *name, size_t len, byte *out, size_t room);

unsigned __wrap_uip_set_value(uip_device *d, size_t number, const void *text, size_t len) {
    if (FAULT == 1 && number < UIP_VALUES) number ^= 1;                          // under its neighbour
    if (FAULT == 2 && len == UIP_MAX_VALUE) len--;                           // the last byte is cut off
    if (FAULT == 3 && number < UIP_VALUES && len > UIP_MAX_VALUE) __real_uip_set_value(d, number, text, UIP_MAX_VALUE);
    if (FAULT == 4 && number < UIP_VALUES && len == 0 && d->is_open) return UIP_OK;    // an empty text is not given
    unsigned status = __real_uip_set_value(d, number, text, len);
    if (FAULT == 5 && len == UIP_MAX_VALUE + 1) status = UIP_OK;
    return status;
}

uip_number __wrap_uip_hits(uip_device *d, const void *name, size_t len) {
    uip_number read = __real_uip_hits(d, name, len);
    if (FAULT == 6 && read.number > 9) read.number--;                            // a hit is not counted
    if (FAULT == 7 && len == 65) read.number = 1;                                // a name that is too long has hits
    return read;
}

uip_number __wrap_uip_is_idle(uip_device *d) {
    uip_number read = __real_uip_is_idle(d);
    if (FAULT == 8 && read.status == UIP_OK && __real_uip_connection(d, 0).state == UIP_CLOSED) read.number = 1;    // by slot 0 alone
    return read;
}

uip_row __wrap_uip_connection(uip_device *d, size_t slot) {
    uip_row row = __real_uip_connection(d, FAULT == 9 && slot < UIP_SLOTS ? slot ^ 1 : slot);    // the row beside it
    if (FAULT == 10 && row.tries) row.tries--;
    if (FAULT == 11 && row.state == UIP_TIME_WAIT) row.state = UIP_FIN_WAIT_1;
    return row;
}

uip_query_text __wrap_uip_query(uip_device *d, const void *name, size_t len, byte *out, size_t room) {
    static byte first[UIP_MAX_QUERY];
    static size_t first_len;
    uip_query_text read = __real_uip_query(d, name, len, out, room);
    if (FAULT == 12 && read.len == UIP_MAX_QUERY) read.len--;                     // the last byte is missing
    if (FAULT == 13 && read.hit > 1) read.hit--;                                  // of the request before
    if (FAULT == 14 && read.len) {                                                // the first query stays
        if (!first_len) memcpy(first, out, first_len = read.len);
        memcpy(out, first, read.len = first_len);
    }
    if (FAULT == 15 && read.status == UIP_OK && !read.len) read.hit = 1;          // a query of a file that has none
    if (FAULT == 16 && read.status == UIP_OK) out[read.len] = 0;                  // a 0 at its end
    if (FAULT == 17 && read.status == UIP_OK && read.len) out[room] = out[0];     // a byte more than there is room for
    if (FAULT == 18 && read.status == UIP_OK && len && *(const byte *)name == '/') {    // a query of another file
        static byte last_name[100];
        static size_t last_len;
        uip_query_text other = __real_uip_query(d, last_name, last_len, out, room);
        if (last_len && other.hit) read = other;
        if (len <= sizeof last_name) memcpy(last_name, name, last_len = len);
    }
    return read;
}
