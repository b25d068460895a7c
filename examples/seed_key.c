/* The key to a seed, in the form in which calibration tools load it: a shared library of which the A2L file has the name
 * (docs/controller.a2l, SEED_AND_KEY_EXTERNAL_FUNCTION), with the two functions below.
 *
 *   cc -shared -fPIC -O2 -o seed_key.so examples/seed_key.c                        for a tool on Linux
 *   x86_64-w64-mingw32-gcc -shared -O2 -o seed_key.dll examples/seed_key.c         for one on Windows, of 64 bits
 *
 * Names, arguments and return codes are those of XCP's part 4 as tools describe them; the standard's part 2 says only that there is
 * such a library. tests/seed_key.test opens the slave's locks with it. No calibration tool has loaded it yet.
 *
 * It guards against mistakes, not against thieves: who has this library, or listens to the line, has every key. */
#include <stdint.h>

#ifdef _WIN32
#define EXPORT __declspec(dllexport)
#else
#define EXPORT __attribute__((visibility("default")))
#endif

enum { DONE, NO_SUCH_PRIVILEGE, WRONG_SEED_LENGTH, TOO_LITTLE_ROOM };
enum { CALIBRATION = 0x01, LISTS = 0x04 }; /* privileges are what CONNECT and GET_SEED call resources */
enum { LENGTH = 4 };                       /* of a seed and of a key */

EXPORT uint32_t XCP_GetAvailablePrivileges(uint8_t *available);
EXPORT uint32_t XCP_ComputeKeyFromSeed(uint8_t privilege, uint8_t seed_length, const uint8_t *seed, uint8_t *key_length,
                                       uint8_t *key);

/* Which privileges there is a key for. */
uint32_t XCP_GetAvailablePrivileges(uint8_t *available)
{
    *available = CALIBRATION | LISTS;
    return DONE;
}

/* `key_length` comes in as the room for a key, and goes out as the key's length. What is refused changes nothing. */
uint32_t XCP_ComputeKeyFromSeed(uint8_t privilege, uint8_t seed_length, const uint8_t *seed, uint8_t *key_length, uint8_t *key)
{
    if (privilege != CALIBRATION && privilege != LISTS)
        return NO_SUCH_PRIVILEGE;
    if (seed_length != LENGTH)
        return WRONG_SEED_LENGTH;
    if (*key_length < LENGTH)
        return TOO_LITTLE_ROOM;
    /* Both travel with their lowest byte first. */
    uint32_t number = (uint32_t)seed[0] | (uint32_t)seed[1] << 8 | (uint32_t)seed[2] << 16 | (uint32_t)seed[3] << 24;
    number += privilege == CALIBRATION ? 0xD05Eu : 0xDA00u;
    number = number << 8 | number >> 24;
    for (int i = 0; i < LENGTH; i++)
        key[i] = (uint8_t)(number >> 8 * i);
    *key_length = LENGTH;
    return DONE;
}
