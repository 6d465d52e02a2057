/* Sharing in plain C: the arithmetic on a share account, and plain_cipher for a line. */
#include "plain.h"
#include "implementation.h"

uint64_t plain_open_sharing(const struct plain *s, struct account *account, const uint64_t shares[LINES])
{
    uint64_t common = LIMIT - s->position;
    if (account->opened != 0)
        return 21;
    for (int line = 0; line < LINES; line++) {
        if (shares[line] > common)
            return 20;
        common -= shares[line];
    }
    account->opened = 1;
    for (int line = 0; line < LINES; line++)
        account->shares[line] = shares[line];
    account->common = common;
    return 0;
}

uint64_t plain_draw(struct plain *s, struct account *account, uint64_t line, uint8_t *bytes, size_t n)
{
    if (account->opened == 0)
        return 21;
    if (n > LIMIT - s->position)
        return 6;
    if (line >= LINES)
        return 19;
    uint64_t own = n < account->shares[line] ? n : account->shares[line];
    if (n - own > account->common)
        return 20;
    account->shares[line] -= own;
    account->common -= n - own;
    plain_cipher(s, bytes, n);
    return 0;
}

uint64_t plain_close_sharing(struct account *account)
{
    if (account->opened == 0)
        return 21;
    *account = (struct account){ { 0, 0, 0, 0 }, 0, 0 };
    return 0;
}
