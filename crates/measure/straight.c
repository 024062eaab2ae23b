/* Verifies a signature of LMS or of HSS so many times, straight by RFC 8554 over OpenSSL's SHA-256, and prints how often per second.

   usage: straight ROUNDS PUBLIC SIGNATURE MESSAGE, the last three in hex; a public key of 56 bytes is one of LMS, of 60 one of HSS.
   SHA-256 and H5 to H25 alone. It ends with 1 where the signature does not verify. */
#include <openssl/sha.h>
#include <stdio.h>
#include <stdlib.h>
#include <string.h>
#include <time.h>

typedef unsigned char byte;

static const int WIDTHS[] = {0, 1, 2, 4, 8}, CHAINS[] = {0, 265, 133, 67, 34}, SHIFTS[] = {0, 7, 6, 4, 0};

static unsigned word(const byte *at) { return (unsigned)at[0] << 24 | at[1] << 16 | at[2] << 8 | at[3]; }

static void put(byte *at, unsigned value, int bytes) {
    while (bytes--) { at[bytes] = value; value >>= 8; }
}

static unsigned digit(const byte *from, int index, int width) {
    return from[index * width / 8] >> (8 - width - index * width % 8) & ((1 << width) - 1);
}

/* The calls that fetch no provider: those of one shot take several times as long. */
static void digest(const byte *text, size_t bytes, byte *out) {
    SHA256_CTX context;
    SHA256_Init(&context);
    SHA256_Update(&context, text, bytes);
    SHA256_Final(out, &context);
}

/* Algorithms 4b and 6a: 1 where the signature verifies, and how many bytes it has. */
static int verify(const byte *public, const byte *message, size_t message_bytes, const byte *signature, size_t bytes) {
    if (bytes < 8) return 0;
    unsigned lms = word(public), ots = word(public + 4), leaf = word(signature);
    if (lms < 5 || lms > 9 || ots < 1 || ots > 4 || word(signature + 4) != ots) return 0;
    int height = 5 * (lms - 4), width = WIDTHS[ots], chains = CHAINS[ots];
    const byte *identifier = public + 8, *randomizer = signature + 8, *elements = randomizer + 32, *rest = elements + 32 * chains;
    if (bytes != 12u + 32 * (chains + 1) + 32 * height || word(rest) != lms || leaf >> height) return 0;
    byte text[55], hash[34], node[87], q[4];
    put(q, leaf, 4);
    SHA256_CTX context;
    SHA256_Init(&context);
    SHA256_Update(&context, identifier, 16);
    SHA256_Update(&context, q, 4);
    SHA256_Update(&context, "\x81\x81", 2);
    SHA256_Update(&context, randomizer, 32);
    SHA256_Update(&context, message, message_bytes);
    SHA256_Final(hash, &context);
    unsigned sum = 0;
    for (int i = 0; i < 256 / width; i++) sum += (1 << width) - 1 - digit(hash, i, width);
    put(hash + 32, sum << SHIFTS[ots], 2);
    SHA256_Init(&context);
    SHA256_Update(&context, identifier, 16);
    SHA256_Update(&context, q, 4);
    SHA256_Update(&context, "\x80\x80", 2);
    memcpy(text, identifier, 16);
    memcpy(text + 16, q, 4);
    for (int i = 0; i < chains; i++) {
        put(text + 20, i, 2);
        memcpy(text + 23, elements + 32 * i, 32);
        for (int j = digit(hash, i, width); j < (1 << width) - 1; j++) {
            text[22] = j;
            digest(text, 55, text + 23);
        }
        SHA256_Update(&context, text + 23, 32);
    }
    byte end[32];
    SHA256_Final(end, &context);
    memcpy(node, identifier, 16);
    unsigned at = (1u << height) + leaf;
    put(node + 16, at, 4);
    memcpy(node + 20, "\x82\x82", 2);
    memcpy(node + 22, end, 32);
    digest(node, 54, end);
    memcpy(node + 20, "\x83\x83", 2);
    for (const byte *path = rest + 4; at > 1; path += 32, at /= 2) {
        put(node + 16, at / 2, 4);
        memcpy(node + 22, at % 2 ? path : end, 32);
        memcpy(node + 54, at % 2 ? end : path, 32);
        digest(node, 86, end);
    }
    return !memcmp(end, public + 24, 32);
}

/* Section 6.3. */
static int verify_levels(const byte *public, const byte *message, size_t message_bytes, const byte *signature, size_t bytes) {
    unsigned levels = word(public);
    if (levels < 1 || levels > 8 || bytes < 4 || word(signature) != levels - 1) return 0;
    const byte *key = public + 4, *end = signature + bytes;
    signature += 4;
    while (--levels) {
        if (end - signature < 8) return 0;
        unsigned ots = word(key + 4), lms = word(key);
        if (lms < 5 || lms > 9 || ots < 1 || ots > 4) return 0;
        size_t size = 12 + 32 * (CHAINS[ots] + 1) + 32 * 5 * (lms - 4);
        if ((size_t)(end - signature) < size + 56 || !verify(key, signature + size, 56, signature, size)) return 0;
        key = signature + size;
        signature = key + 56;
    }
    return verify(key, message, message_bytes, signature, end - signature);
}

static byte *bytes_of(const char *digits, size_t *size) {
    *size = strlen(digits) / 2;
    byte *bytes = malloc(*size + 1);
    for (size_t i = 0; i < *size; i++) {
        unsigned value;
        sscanf(digits + 2 * i, "%2x", &value);
        bytes[i] = value;
    }
    return bytes;
}

int main(int count, char **words) {
    if (count != 5) return 2;
    size_t key_bytes, bytes, message_bytes;
    byte *public = bytes_of(words[2], &key_bytes), *signature = bytes_of(words[3], &bytes), *message = bytes_of(words[4], &message_bytes);
    struct timespec start, end;
    clock_gettime(CLOCK_MONOTONIC, &start);
    for (long round = atol(words[1]); round; round--)
        if (!(key_bytes == 56 ? verify : verify_levels)(public, message, message_bytes, signature, bytes)) return 1;
    clock_gettime(CLOCK_MONOTONIC, &end);
    printf("%.1f\n", atol(words[1]) / (end.tv_sec - start.tv_sec + (end.tv_nsec - start.tv_nsec) / 1e9));
    return 0;
}
