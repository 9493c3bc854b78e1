// Prints what a key and messages cost with AES-256-GCM of OpenSSL, or of Nettle: the processor time of a call, in
// nanoseconds.
#include <openssl/evp.h>
#include <stdio.h>
#include <stdlib.h>
#include <string.h>
#include <time.h>
#ifdef NETTLE
#include <nettle/gcm.h>
#endif

enum { MOST = 1048576 };

static volatile int same;
static unsigned char message[MOST], tag[12], key[32] = {0x42}, iv[12] = {0x17};

static double now(void) {
    struct timespec t;
    clock_gettime(CLOCK_THREAD_CPUTIME_ID, &t);
    return 1e9 * t.tv_sec + t.tv_nsec;
}

static void check(int ok) {
    if (!ok) {
        fprintf(stderr, "a call failed\n");
        exit(1);
    }
}

#ifdef NETTLE
static struct gcm_aes256_ctx gcm;

static void prepare(void) { gcm_aes256_set_key(&gcm, key); }

static void seal(int n) {
    gcm_aes256_set_iv(&gcm, 12, iv);
    gcm_aes256_encrypt(&gcm, n, message, message);
    gcm_aes256_digest(&gcm, 12, tag);
}

// Nettle's decryption is its encryption; it compares no tag.
static void verify(int n) {
    unsigned char made[12];
    gcm_aes256_set_iv(&gcm, 12, iv);
    gcm_aes256_decrypt(&gcm, n, message, message);
    gcm_aes256_digest(&gcm, 12, made);
    same = memcmp(made, tag, 12);
}

static void begin(void) {}
#else
static EVP_CIPHER_CTX *sealing, *opening;

static void prepare(void) { check(EVP_EncryptInit_ex(sealing, NULL, NULL, key, NULL)); }

static void seal(int n) {
    int out;
    check(EVP_EncryptInit_ex(sealing, NULL, NULL, NULL, iv));
    check(EVP_EncryptUpdate(sealing, message, &out, message, n));
    check(EVP_EncryptFinal_ex(sealing, message, &out));
    check(EVP_CIPHER_CTX_ctrl(sealing, EVP_CTRL_GCM_GET_TAG, 12, tag));
}

static void verify(int n) {
    int out;
    check(EVP_DecryptInit_ex(opening, NULL, NULL, NULL, iv));
    check(EVP_CIPHER_CTX_ctrl(opening, EVP_CTRL_GCM_SET_TAG, 12, tag));
    check(EVP_DecryptUpdate(opening, message, &out, message, n));
    EVP_DecryptFinal_ex(opening, message, &out);
}

static void begin(void) {
    sealing = EVP_CIPHER_CTX_new();
    opening = EVP_CIPHER_CTX_new();
    check(EVP_EncryptInit_ex(sealing, EVP_aes_256_gcm(), NULL, key, iv));
    check(EVP_DecryptInit_ex(opening, EVP_aes_256_gcm(), NULL, key, iv));
}
#endif

int main(void) {
    static const int sizes[] = {64, 256, 1500, 4096, MOST}, times[] = {20000, 8000, 1600, 600, 2};
    double start;
    begin();
    start = now();
    for (int i = 0; i < 10000; i++) {
        key[0] ^= i;
        prepare();
    }
    printf("prepare %.0f\n", (now() - start) / 10000);
    for (int k = 0; k < 5; k++) {
        start = now();
        for (int i = 0; i < times[k]; i++)
            seal(sizes[k]);
        printf("seal %d %.0f\n", sizes[k], (now() - start) / times[k]);
        start = now();
        for (int i = 0; i < times[k]; i++)
            verify(sizes[k]);
        printf("verify %d %.0f\n", sizes[k], (now() - start) / times[k]);
    }
    return 0;
}
