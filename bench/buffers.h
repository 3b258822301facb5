// The commands and the reply that are decoded, encoded and executed. bench.c and peers.c include it behind timing.h.

enum { EVENT = 4 }; // how many bytes the event of PCR_Event has

struct buffer {
    size_t len;
    uint8_t bytes[4096];
};

enum {
    PCR_EXTEND, PCR_EXTEND_PLAIN, PCR_EXTEND_SIGNED, PCR_EXTEND_ALL, PCR_EVENT, PCR_READ, NV_READ, START_AUTH_SESSION,
    PCR_READ_REPLY, BUFFERS
};
static struct buffer buffers[BUFFERS];

static void add(struct buffer *buffer, const char *hex) {
    unsigned byte;
    for (; sscanf(hex, " %2x", &byte) == 1; hex += strspn(hex, " ") + 2)
        buffer->bytes[buffer->len++] = (uint8_t)byte;
}

static void fill(struct buffer *buffer, size_t count) {
    for (size_t i = 0; i < count; i++)
        buffer->bytes[buffer->len++] = (uint8_t)(i + count);
}

static struct buffer *begin(int which, const char *header) {
    add(&buffers[which], header);
    return &buffers[which];
}

// The parameters of PCR_Extend: two digests.
static void add_two_digests(struct buffer *b) {
    add(b, "00000002 0004");
    fill(b, 20);
    add(b, "000B");
    fill(b, 32);
}

// What an HMAC session of SHA-256 makes of them without a key: cpHash, nonceCaller, nonceTPM, sessionAttributes, and
// the HMAC.
enum {
    EXTEND_PARAMETERS = 4 + 2 + 20 + 2 + 32,
    CP_HASHED = 4 + 4 + EXTEND_PARAMETERS,
    NONCE = 32,
    MAC_TEXT = 32 + NONCE + NONCE + 1
};
static uint8_t cp_hashed[CP_HASHED], mac_text[MAC_TEXT];

static void add_session(struct buffer *b) {
    struct buffer hashed = {0};
    unsigned written = 0;
    add(&hashed, "00000182 00000010");
    add_two_digests(&hashed);
    want(hashed.len == CP_HASHED, "what cpHash is of");
    memcpy(cp_hashed, hashed.bytes, CP_HASHED);
    want(SHA256(cp_hashed, CP_HASHED, mac_text) != NULL, "cpHash");
    memset(mac_text + 32, 0xC1, NONCE); // nonceCaller; nonceTPM is zeros
    mac_text[MAC_TEXT - 1] = 0x01;
    add(b, "02000000 0020");
    memcpy(b->bytes + b->len, mac_text + 32, NONCE);
    b->len += NONCE;
    add(b, "01 0020");
    want(HMAC(EVP_sha256(), "", 0, mac_text, MAC_TEXT, b->bytes + b->len, &written) != NULL && written == 32,
         "the HMAC");
    b->len += written;
}

static void make_buffers(void) {
    struct buffer *b = begin(PCR_EXTEND, "8002 00000057 00000182");
    add(b, "00000010  00000009 40000009 0000 01 0000"); // register 16; a password, which is empty
    add_two_digests(b);
    want(b->len == 0x57, "the length of PCR_Extend");

    b = begin(PCR_EXTEND_PLAIN, "8001 0000004A 00000182");
    add(b, "00000010"); // the same, without a session
    add_two_digests(b);
    want(b->len == 0x4A, "the length of PCR_Extend without a session");

    b = begin(PCR_EXTEND_SIGNED, "8002 00000097 00000182");
    add(b, "00000010  00000049"); // the same, in an HMAC session
    add_session(b);
    add_two_digests(b);
    want(b->len == 0x97, "the length of PCR_Extend in a session");

    b = begin(PCR_EXTEND_ALL, "8002 00000089 00000182");
    add(b, "00000010  00000009 40000009 0000 01 0000"); // the same
    add(b, "00000003 0004");                            // a digest for each bank
    fill(b, 20);
    add(b, "000B");
    fill(b, 32);
    add(b, "000C");
    fill(b, 48);
    want(b->len == 0x89, "the length of PCR_Extend in all banks");

    b = begin(PCR_EVENT, "8002 00000021 0000013C");
    add(b, "00000010  00000009 40000009 0000 01 0000"); // the same
    add(b, "0004");
    fill(b, EVENT);
    want(b->len == 0x21, "the length of PCR_Event");

    b = begin(PCR_READ, "8001 00000014 0000017E");
    add(b, "00000001 000B 03 010000"); // register 0 of SHA-256
    want(b->len == 0x14, "the length of PCR_Read");

    b = begin(NV_READ, "8002 00000063 0000014E");
    add(b, "01800001 01800001  00000049 02000000 0020"); // an index, by itself; an HMAC session
    fill(b, 32);
    add(b, "01 0020");
    fill(b, 32);
    add(b, "0008 0000"); // eight bytes from the first
    want(b->len == 0x63, "the length of NV_Read");

    b = begin(START_AUTH_SESSION, "8001 0000003B 00000176");
    add(b, "40000007 40000001 0020"); // no key; bound to the owner
    fill(b, 32);
    add(b, "0000 00 0010 000B"); // no salt; an HMAC session; no encryption; SHA-256
    want(b->len == 0x3B, "the length of StartAuthSession");

    b = begin(PCR_READ_REPLY, "8001 000000D2 00000000");
    add(b, "0000002A  00000002 0004 03 FF0000 000B 03 000000  00000008"); // registers 0 to 7 of SHA-1
    for (int i = 0; i < 8; i++) {
        add(b, "0014");
        fill(b, 20);
    }
    want(b->len == 0xD2, "the length of PCR_Read's reply");
}
