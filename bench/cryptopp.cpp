/* Crypto++'s HC-128 and HC-256, which set up and encipher.
 *
 * Crypto++ 8.7 exchanges bytes 1 and 3 of each word of the HC-256 key and IV, after eSTREAM's reference code, so that its stream is the one that
 * paper 002 gives for the key and IV with these bytes exchanged. They are exchanged here beforehand.
 *
 * In place, Crypto++ 8.7 makes whole blocks (64 bytes for HC-128, 16 for HC-256) zero: it writes the keystream over the input and then takes the
 * exclusive or of the two. So it reads here from a second buffer, which holds zeros. */
#include <cryptopp/hc128.h>
#include <cryptopp/hc256.h>

extern "C" {
#include "implementation.h"
extern const struct implementation cryptopp;
}

namespace {

struct state {
    int code;
    CryptoPP::HC128::Encryption hc128;
    CryptoPP::HC256::Encryption hc256;
};

uint8_t zeros[16777216];

void *create(int code)
{
    state *s = new state;
    s->code = code;
    return s;
}

void exchange_bytes_1_and_3(uint8_t *to, const uint8_t *from)
{
    for (size_t i = 0; i < 32; i++)
        to[i] = i % 2 == 1 ? from[i ^ 2] : from[i];
}

void set_up(void *p, const uint8_t *key, const uint8_t *iv, size_t times)
{
    state *s = static_cast<state *>(p);
    if (s->code == 1) {
        for (size_t i = 0; i < times; i++)
            s->hc128.SetKeyWithIV(key, 16, iv, 16);
        return;
    }
    uint8_t exchanged_key[32], exchanged_iv[32];
    exchange_bytes_1_and_3(exchanged_key, key);
    exchange_bytes_1_and_3(exchanged_iv, iv);
    for (size_t i = 0; i < times; i++)
        s->hc256.SetKeyWithIV(exchanged_key, 32, exchanged_iv, 32);
}

void cipher(void *p, uint8_t *bytes, size_t n, size_t calls)
{
    state *s = static_cast<state *>(p);
    const uint8_t *from = zeros;
    if (s->code == 1)
        for (size_t i = 0; i < calls; i++, bytes += n, from += n)
            s->hc128.ProcessData(bytes, from, n);
    else
        for (size_t i = 0; i < calls; i++, bytes += n, from += n)
            s->hc256.ProcessData(bytes, from, n);
}

} // namespace

const struct implementation cryptopp = { "Crypto++", create, set_up, cipher, 1, nullptr, nullptr, nullptr, nullptr, nullptr, nullptr, nullptr,
                                         nullptr, nullptr, nullptr, nullptr };
