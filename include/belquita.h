/* Belquita for programs in C and C++: looks certificates up in a control area, and checks an area. ./build-c makes the archive.

       cc -I include prog.c target/staticlib/libbelquita.a

   The archive is for x86-64 Linux only; this page is for C11 and C++11 or later. From outside it asks for memcpy and memset, and nothing else
   (tests/scanner).

   What the two functions answer is proved, for all inputs that keep the rules below (crates/scanner; the numbers are document 01's). Neither keeps
   anything between calls, takes memory or writes anywhere but into the output it is lent; threads may call them at once.

   NOTHING CHECKS what the caller must keep:
   - Each pointer is valid for as many bytes as its length says.
   - No pointer is null, even where its length is 0: point to any byte then.
   - The output overlaps neither the area nor the key. Area and key may overlap.
   - No length is above 2^63 - 1, and nobody changes area, key or output while a call runs.
   Where one of these is broken, anything may happen. The four measures may be any numbers: wrong ones are refused with 1.

   A GET VOUCHES FOR TWO PLACES ONLY, the index record and the interval that the key leads to. Damage elsewhere does not refuse it: check each area
   once when it arrives, and use none of it where the check is not answered 0.

   Stack that a call took, at most, with the archive of an older kit (measured, not proved):
   - belquita_get: 6,520 bytes
   - belquita_check: 6,072 bytes (tests/speed/stack.c, whose own frame is in it) */
#ifndef BELQUITA_H
#define BELQUITA_H

#include <stddef.h>
#include <stdint.h>

#ifdef __cplusplus
static_assert(sizeof(size_t) == 8, "belquita: the archive is for 64-bit programs");
extern "C" {
#else
_Static_assert(sizeof(size_t) == 8, "belquita: the archive is for 64-bit programs");
#endif

/* The numbers of answers. A get answers 0, 1, 2, 3, 5 or 8, a check 0, 1 or 2. The others are the register's, for requests that are not exported. Only 0
   is good: on any other answer to a get the pallet stays. */
#define BELQUITA_DONE 0         /* get: the record stands at the output's front; check: the whole area is sound */
#define BELQUITA_OUTSIDE 1      /* wrong measures, or the area has a wrong length for them */
#define BELQUITA_DAMAGED 2      /* the area is damaged, or has the old form: belquita_place says where */
#define BELQUITA_WRONG_LENGTH 3 /* the key has not key_length bytes */
#define BELQUITA_PRESENT 4      /* not given here: a record with this key is there already */
#define BELQUITA_ABSENT 5       /* no record has this key */
#define BELQUITA_NO_INTERVAL 6  /* not given here: too few free intervals */
#define BELQUITA_NO_ROOM 7      /* not given here: no room in the index record */
#define BELQUITA_SHORT 8        /* the output is too short for the record: belquita_needed says how long it must be */
#define BELQUITA_NO_RECORD 9    /* not given here: no record begins at this address */

/* No record is longer. No record of an area is longer than the `most` that comes with the call either. */
#define BELQUITA_LONGEST 32761

/* Looks up the record with a key. Where it is found (0) the record's bytes, belquita_length of them, are written to the output's front; all other bytes
   of the output stay as they were, and where it is refused all do. The refusals are tried in this order: 1; 2 at place 0, the index record; 3; 2 at the
   interval that the key leads to; 5; 8.

   size: bytes of an interval. offset, key_length: where the key stands in a record, and its bytes. most: bytes of the longest record. area: the index
   record and the data intervals, one after another. */
uint64_t belquita_get(size_t size, size_t offset, size_t key_length, size_t most, const uint8_t *area, size_t area_len, const uint8_t *key, size_t key_len,
                      uint8_t *out, size_t out_len);

/* Checks the whole area: 1; 2 with the place of the damage, the index record before all others, then the lowest interval; or 0 with belquita_records and
   belquita_free. */
uint64_t belquita_check(size_t size, size_t offset, size_t key_length, size_t most, const uint8_t *area, size_t area_len);

/* The word that both return, taken apart: its lowest byte is the number, the next two are a place or the free intervals, what lies above them is a length
   or the records. A value that does not come with the answer is 0. */

/* The number of the answer. */
static inline unsigned belquita_number(uint64_t word)
{
    return (unsigned)(word & 0xFF);
}

/* 2, both: where the damage is: 0 the index record, P data interval P - 1; at most 4,096. */
static inline unsigned belquita_place(uint64_t word)
{
    return (unsigned)(word >> 8 & 0xFFFF);
}

/* 0, check: how many intervals are free; at most 4,096. */
static inline unsigned belquita_free(uint64_t word)
{
    return (unsigned)(word >> 8 & 0xFFFF);
}

/* 0, get: how many bytes the record has. */
static inline size_t belquita_length(uint64_t word)
{
    return (size_t)(word >> 24);
}

/* 8, get: how many bytes the output must have. */
static inline size_t belquita_needed(uint64_t word)
{
    return (size_t)(word >> 24);
}

/* 0, check: how many records the area has; below 2^27. */
static inline size_t belquita_records(uint64_t word)
{
    return (size_t)(word >> 24);
}

#ifdef __cplusplus
}
#endif

#endif
