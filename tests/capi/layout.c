/* Where each field of each struct of include/chomkadieu.h lies, one row a field: its offset and size. layout.txt has what is promised, and the Rust crate
 * holds its own structs to the same file. */
#include "chomkadieu.h"
#include "see.h"

#include <stdio.h>
#include <string.h>

static char rows[8192];
static size_t used;

static void row(const char *name, size_t at, size_t size) {
    used += (size_t)snprintf(rows + used, sizeof rows - used, "%s %zu %zu\n", name, at, size);
}

#define STRUCT(type) row(#type, 0, sizeof(type))
#define FIELD(type, field) row(#type "." #field, offsetof(type, field), sizeof(((type *)0)->field))

static void entry_rows(void) {
    STRUCT(ck_entry);
    FIELD(ck_entry, task_at);
    FIELD(ck_entry, task_len);
    FIELD(ck_entry, pid);
    FIELD(ck_entry, cpu);
    FIELD(ck_entry, seconds);
    FIELD(ck_entry, microseconds);
    FIELD(ck_entry, function_at);
    FIELD(ck_entry, function_len);
    FIELD(ck_entry, kind);
    FIELD(ck_entry, size);
    FIELD(ck_entry, dropped);
    FIELD(ck_entry, domain);
    FIELD(ck_entry, route);
    FIELD(ck_entry, offset);
    FIELD(ck_entry, code);
    FIELD(ck_entry, len);
    FIELD(ck_entry, port);
    FIELD(ck_entry, config);
    FIELD(ck_entry, seq);
    FIELD(ck_entry, unplug);
    FIELD(ck_entry, dwords);
    STRUCT(ck_entry_answer);
    FIELD(ck_entry_answer, number);
    FIELD(ck_entry_answer, entry);
    STRUCT(ck_what_answer);
    FIELD(ck_what_answer, number);
    FIELD(ck_what_answer, what);
    STRUCT(ck_write_answer);
    FIELD(ck_write_answer, number);
    FIELD(ck_write_answer, bytes);
    STRUCT(ck_event_text);
    FIELD(ck_event_text, bytes);
    FIELD(ck_event_text, len);
}

static void packet_rows(void) {
    STRUCT(ck_packet_answer);
    FIELD(ck_packet_answer, number);
    FIELD(ck_packet_answer, start);
    FIELD(ck_packet_answer, has_uuid);
    FIELD(ck_packet_answer, uuid);
    STRUCT(ck_text_packet);
    FIELD(ck_text_packet, kind);
    FIELD(ck_text_packet, dwords);
    FIELD(ck_text_packet, packet);
    STRUCT(ck_value);
    FIELD(ck_value, number);
    FIELD(ck_value, present);
    FIELD(ck_value, value);
    STRUCT(ck_uuid);
    FIELD(ck_uuid, number);
    FIELD(ck_uuid, present);
    FIELD(ck_uuid, dwords);
    STRUCT(ck_type);
    FIELD(ck_type, number);
    FIELD(ck_type, present);
    FIELD(ck_type, value);
    FIELD(ck_type, name);
    STRUCT(ck_field_answer);
    FIELD(ck_field_answer, number);
    FIELD(ck_field_answer, present);
    FIELD(ck_field_answer, offset);
    FIELD(ck_field_answer, value);
    FIELD(ck_field_answer, source);
    FIELD(ck_field_answer, entry);
    STRUCT(ck_range_answer);
    FIELD(ck_range_answer, present);
    FIELD(ck_range_answer, low);
    FIELD(ck_range_answer, high);
    FIELD(ck_range_answer, value);
    FIELD(ck_range_answer, place);
    STRUCT(ck_name_part);
    FIELD(ck_name_part, at);
    FIELD(ck_name_part, len);
}

static void table_rows(void) {
    STRUCT(ck_four);
    FIELD(ck_four, route);
    FIELD(ck_four, domain);
    FIELD(ck_four, seq);
    FIELD(ck_four, write);
    STRUCT(ck_slot);
    FIELD(ck_slot, four);
    FIELD(ck_slot, rank);
    STRUCT(ck_step_answer);
    FIELD(ck_step_answer, number);
    FIELD(ck_step_answer, report);
    FIELD(ck_step_answer, place);
    STRUCT(ck_count_answer);
    FIELD(ck_count_answer, number);
    FIELD(ck_count_answer, count);
    STRUCT(ck_place_answer);
    FIELD(ck_place_answer, number);
    FIELD(ck_place_answer, present);
    FIELD(ck_place_answer, place);
}

static void stream_rows(void) {
    STRUCT(ck_stream);
    FIELD(ck_stream, held);
    FIELD(ck_stream, passed);
    STRUCT(ck_stream_answer);
    FIELD(ck_stream_answer, number);
    FIELD(ck_stream_answer, ended);
    FIELD(ck_stream_answer, at);
    FIELD(ck_stream_answer, state);
    FIELD(ck_stream_answer, entry);
}

static void hex_rows(void) {
    STRUCT(ck_hex_answer);
    FIELD(ck_hex_answer, number);
    FIELD(ck_hex_answer, what);
    FIELD(ck_hex_answer, value);
    FIELD(ck_hex_answer, bad);
    FIELD(ck_hex_answer, at);
    FIELD(ck_hex_answer, len);
}

void every_offset(const char *path) {
    static char promised[sizeof rows];
    FILE *file = fopen(path, "rb");
    size_t size = file ? fread(promised, 1, sizeof promised, file) : 0;
    if (file) fclose(file);
    entry_rows();
    packet_rows();
    table_rows();
    stream_rows();
    hex_rows();
    int same = size == used && !memcmp(rows, promised, used);
    see(same, "each field lies where layout.txt says");
    if (!same) fputs(rows, stdout);
}
