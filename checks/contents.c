/* What the data of the records of a log say, from standard input: the lines of checks/contents.py, or with a word the
 * records' objects. */
#include "vinjakwe.h"

#include <stdio.h>

static uint8_t bytes[16777217];
static uint8_t object[16777216];

static void show(const uint8_t *data, struct tpm_part it) {
    printf(it.len == 0 ? " -" : " ");
    for (size_t i = 0; i < it.len; i++)
        printf("%02x", data[it.at + i]);
}

static void show_number(uint64_t number) { printf(" %llu", (unsigned long long)number); }

static void show_nodes(const uint8_t *data, struct tpm_part path) {
    struct tpm_path_node it;
    const char *between = " ";
    size_t count = tpm_log_path_json(data + path.at, path.len, object, 2 + 16 * path.len);
    while (tpm_log_path_node(data + path.at, path.len, &it) == TPM_PATH_NODE) {
        printf("%s%u:%u:", between, it.type, it.subtype);
        for (size_t i = 0; i < it.value.len; i++)
            printf("%02x", data[path.at + it.value.at + i]);
        between = ",";
        path.at += it.value.at + it.value.len;
        path.len -= it.value.at + it.value.len;
    }
    printf("%s %.*s", *between == ' ' ? " -" : "", (int)count, (char *)object);
}

static void show_option(int number, const uint8_t *value, size_t len) {
    struct tpm_load_option it;
    struct tpm_part path;
    if (tpm_log_load_option(value, len, &it) != TPM_LOAD_OPTION)
        printf("%d no option", number);
    printf("%d option", number);
    show_number(it.attributes);
    show(value, it.description);
    show(value, it.value);
    while (tpm_log_device_path(value + it.path.at, it.path.len, &path) == TPM_DEVICE_PATH) {
        printf("\n%d path", number);
        show_nodes(value + it.path.at, path);
        it.path.at += path.len;
        it.path.len -= path.len;
    }
    printf("\n");
}

static void show_owned(int number, const uint8_t *value, size_t len) {
    struct tpm_owned it;
    if (tpm_log_owned(value, len, &it) != TPM_OWNED)
        printf("%d no signature", number);
    printf("%d owned", number);
    show(value, it.owner);
    show(value, it.value);
    printf("\n");
}

static void show_lists(int number, const uint8_t *value, size_t len) {
    struct tpm_signature_list it;
    while (tpm_log_signature_list(value, len, &it) == TPM_SIGNATURE_LIST) {
        printf("%d list", number);
        show(value, it.type);
        show(value, it.header);
        printf("\n");
        for (size_t i = 0; i < it.count; i++)
            show_owned(number, value + it.entries.at + i * it.entry_size, it.entry_size);
        value += it.entries.at + it.entries.len;
        len -= it.entries.at + it.entries.len;
    }
}

static void show_held(int number, const uint8_t *value, size_t len, uint32_t holds) {
    if (holds == TPM_HOLDS_LOAD_OPTION)
        show_option(number, value, len);
    else if (holds == TPM_HOLDS_SIGNATURES)
        show_lists(number, value, len);
    else if (holds == TPM_HOLDS_SIGNATURE)
        show_owned(number, value, len);
    else if (holds == TPM_HOLDS_BYTE && len == 1)
        printf("%d byte %u\n", number, value[0]);
    else if (holds == TPM_HOLDS_BOOT_ORDER) {
        printf("%d order", number);
        for (size_t i = 0; i < len; i += 2)
            show_number(value[i] | value[i + 1] << 8);
        printf("\n");
    } else if (holds != (len == 0 ? TPM_HOLDS_EMPTY : TPM_HOLDS_BYTES))
        printf("%d holds %u\n", number, (unsigned)holds);
}

static void show_variable(int number, const uint8_t *data, const struct tpm_content *it) {
    printf("%d variable", number);
    show(data, it->variable.guid);
    show(data, it->variable.name);
    show(data, it->variable.value);
    printf("\n");
    show_held(number, data + it->variable.value.at, it->variable.value.len, it->holds);
}

static void show_tables(int number, const uint8_t *data, const struct tpm_tables *it) {
    printf("%d tables", number);
    show(data, it->name);
    printf("\n");
    for (size_t i = 0; i < it->count; i++) {
        const uint8_t *entry = data + it->entries.at + i * TPM_TABLE_BYTES;
        struct tpm_table one;
        if (tpm_log_table(entry, TPM_TABLE_BYTES, &one) != TPM_TABLE)
            printf("%d no table", number);
        printf("%d table", number);
        show(entry, one.guid);
        show_number(one.address);
        printf("\n");
    }
}

static void show_partitions(int number, const uint8_t *data, const struct tpm_partitions *it) {
    printf("%d partitions", number);
    show(data, it->disk);
    printf("\n");
    for (size_t i = 0; i < it->count; i++) {
        const uint8_t *entry = data + it->entries.at + i * it->entry_size;
        struct tpm_partition one;
        if (tpm_log_partition(entry, it->entry_size, &one) != TPM_PARTITION)
            printf("%d no partition", number);
        printf("%d partition", number);
        show(entry, one.type);
        show(entry, one.guid);
        show_number(one.first);
        show_number(one.last);
        show_number(one.attributes);
        show(entry, one.name);
        printf("\n");
    }
}

/* A word, and a part or a number. */
static void show_part(int number, const char *word, const uint8_t *data, struct tpm_part it) {
    printf("%d %s", number, word);
    show(data, it);
    printf("\n");
}

static void show_one(int number, const char *word, uint32_t it) {
    printf("%d %s %lu\n", number, word, (unsigned long)it);
}

/* Text of ASCII in UTF-16 as UTF-8. */
static void show_wide(int number, const uint8_t *data, struct tpm_part it) {
    printf("%d text ", number);
    for (size_t i = 0; i < it.len; i += 2)
        printf("%02x", data[it.at + i]);
    printf("\n");
}

static void show_image(int number, const uint8_t *data, const struct tpm_image *it) {
    printf("%d image", number);
    show_number(it->address);
    show_number(it->size);
    show_number(it->link_address);
    show_nodes(data, it->path);
    printf("\n");
}

static void show_device(int number, const uint8_t *data, const struct tpm_content *it, int is_first) {
    printf("%d %s", number, is_first ? "measurement" : "evidence");
    if (is_first) {
        show_number(it->measurement.hash);
        show_number(it->measurement.device_type);
        show(data, it->measurement.block);
        show(data, it->measurement.context);
    } else {
        show_number(it->evidence.auth_state);
        show_number(it->evidence.device_type);
        show_number(it->evidence.sub_header_type);
        show_number(it->evidence.uid);
        show_nodes(data, it->evidence.path);
        show(data, it->evidence.sub_header);
        show(data, it->evidence.context);
    }
    printf("\n");
}

static void show_content(int number, uint32_t type, const uint8_t *data, size_t len) {
    struct tpm_content it;
    switch (tpm_log_event_content(type, data, len, &it)) {
    case TPM_VARIABLE: show_variable(number, data, &it); break;
    case TPM_TEXT: show_part(number, "text", data, it.text); break;
    case TPM_TEXT_UTF16: show_wide(number, data, it.text); break;
    case TPM_VERSION: show_part(number, "version", data, it.text); break;
    case TPM_VERSION_GUID: show_part(number, "version-guid", data, it.text); break;
    case TPM_SEPARATOR: show_one(number, "separator", it.number); break;
    case TPM_LOCALITY: show_one(number, "locality", it.number); break;
    case TPM_IMAGE: show_image(number, data, &it.image); break;
    case TPM_FIRMWARE:
        printf("%d firmware", number);
        show_number(it.firmware.base);
        show_number(it.firmware.size);
        show(data, it.firmware.name);
        printf("\n");
        break;
    case TPM_TABLES: show_tables(number, data, &it.tables); break;
    case TPM_TAG:
        printf("%d tag", number);
        show_number(it.tag.id);
        show(data, it.tag.value);
        printf("\n");
        break;
    case TPM_PARTITIONS: show_partitions(number, data, &it.partitions); break;
    case TPM_MEASUREMENT: show_device(number, data, &it, 1); break;
    case TPM_EVIDENCE: show_device(number, data, &it, 0); break;
    default: break;
    }
}

/* The object of a record has the room that the header names, and room for all its bytes but one is too small. */
static void show_object(size_t number, size_t len, const struct tpm_log_event *event) {
    size_t count = tpm_log_event_json(bytes, len, event->at, number, object, 4096 + 16 * event->data.len);
    if (count == 0 || tpm_log_event_json(bytes, len, event->at, number, object, count - 1) != 0)
        printf("%zu no object", number);
    count = tpm_log_event_json(bytes, len, event->at, number, object, count);
    printf("%.*s\n", (int)count, (char *)object);
}

int main(int words, char **word) {
    (void)word;
    size_t len = fread(bytes, 1, sizeof bytes, stdin);
    struct tpm_log_place place = {0, 0};
    struct tpm_log_event event;
    uint32_t at;
    for (int number = 1; tpm_log_event(bytes, len, &place, &event, &at) == TPM_EVENT; number++)
        if (words > 1)
            show_object((size_t)number, len, &event);
        else
            show_content(number, event.type, bytes + event.data.at, event.data.len);
    return 0;
}
