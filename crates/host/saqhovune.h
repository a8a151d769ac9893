/* The C functions of the crate host: `rt lib` in its folder writes out/libhost.a with them.
 *
 * A set may have up to eight places, each begun by a record PL with an empty body; records before the first PL, if any, are the
 * first place. Of modules of one name, which stand in different places, the first from the front counts and hides the others. Positions
 * count all modules of the set from 0, hidden ones too; a hidden module is checked like others, and is never a member.
 *
 * With one record ST of an empty body in the request, static requirements (RQ with flag 0x0040) bring in permitted modules of the set.
 * Without it they bring nothing in, and are read edges where both modules are resolved by other means.
 *
 * A slice is a pointer and a length. The caller is trusted with this, and nothing of it is checked: every pointer is not null and is
 * aligned, also that of a slice of length 0, and leads to as many elements as the length or the array's type says; what is written,
 * row and particulars included, overlaps no other argument; nobody else writes an argument during the call; a bool is 0 or 1; there is
 * enough stack.
 *
 * Stack on x86-64, by the frames of the compiled functions and as measured, rounded up: 710 KiB for saqhovune_resolve,
 * 320 KiB for saqhovune_from_class_file, 145 KiB for saqhovune_automatic_from_jar_name, 45 KiB for every other function.
 *
 * Each function returns 0 for an answer, else the number of a refusal (document 01), and always writes all four words of
 * particulars, unused ones as 0:
 *   0   what the function answers
 *   1   which input is malformed (0 set, 1 request, 2 package records), the offset of the record
 *   2   the offset of the record (the 513th module, hidden ones counted, or the PL of the ninth place), or 0
 *   3   the offset of the record (a module whose name stands before in its place, or is ALL-UNNAMED)
 *   4   how many bytes or words are needed
 *   5   which input has the absent name (0 set, 1 request), where it starts, its length
 *   6   nothing
 *   7   where the package's name starts in the set, its length, the positions of its owner and of the second module
 *   8   the offset of the fault
 *   9, 10   nothing
 * Nothing but the particulars is written on a refusal.
 *
 * A configuration is 4,616 words that the caller lends. Words 0 to 7 are the members. For the module at position i the words from
 * 8 + 9 i to 8 + 9 i + 7 are its read edges, and the lowest bit of word 8 + 9 i + 8 says whether it reads ALL-UNNAMED. Of eight such
 * words position j is bit j % 64 of word j / 64. saqhovune_resolve writes all 4,616 words or none: all other bits are 0, and so are the
 * nine words of a position that is no member. Where words are read, the other bits of each ninth word are ignored, and so are bits at
 * positions of hidden modules and past the last module. Words past the first 4,616 are neither read nor written. Fewer words are
 * number 4 with 4,616, tested once the records are (1 to 3), and in saqhovune_resolve before 5 to 7.
 */
#ifndef SAQHOVUNE_H
#define SAQHOVUNE_H

#include <stdbool.h>
#include <stddef.h>
#include <stdint.h>

#define SAQHOVUNE_WORDS 4616

#ifdef __cplusplus
extern "C" {
#endif

/* Checks a set and a request (1 to 3). Answers the number of modules, hidden ones too. */
uint64_t saqhovune_check(const uint8_t *set, size_t set_len, const uint8_t *request, size_t request_len,
                         uint64_t particulars[4]);

/* Resolves a set and a request (1 to 3, 4, 5 to 7) into the first 4,616 words. Answers the number of resolved modules. */
uint64_t saqhovune_resolve(const uint8_t *set, size_t set_len, const uint8_t *request, size_t request_len, uint64_t *words,
                           size_t words_len, uint64_t particulars[4]);

/* Whether the asker may access the package of the target, or, where `reflection` is true, reflect on it (1 to 3, 4). Answers 0 Allowed,
 * 1 NotReadable, 2 NotExported (access) or 3 NotOpened (reflection). */
uint64_t saqhovune_check_access(const uint8_t *set, size_t set_len, const uint8_t *request, size_t request_len,
                                const uint64_t *words, size_t words_len, bool reflection, const uint8_t *asker, size_t asker_len,
                                const uint8_t *target, size_t target_len, const uint8_t *package, size_t package_len,
                                uint64_t particulars[4]);

/* Whether a module can read another (1 to 3 of the set, 4). Answers 1 where the names are equal, known or not, where `to` is
 * java.base, or where a member has a read edge to the other; else 0. */
uint64_t saqhovune_can_read(const uint8_t *set, size_t set_len, const uint64_t *words, size_t words_len, const uint8_t *from,
                            size_t from_len, const uint8_t *to, size_t to_len, uint64_t particulars[4]);

/* The owner of a package (1 to 3 of the set, 4). Answers 1 and the owner's position, or 0. */
uint64_t saqhovune_find_module_for_package(const uint8_t *set, size_t set_len, const uint64_t *words, size_t words_len,
                                           const uint8_t *package, size_t package_len, uint64_t particulars[4]);

/* The members that read the module of this name, or ALL-UNNAMED (1 to 3 of the set, 4), as a row of eight words; none where the
 * name is not known. Answers 0. */
uint64_t saqhovune_readers_of(const uint8_t *set, size_t set_len, const uint64_t *words, size_t words_len, const uint8_t *name,
                              size_t name_len, uint64_t row[8], uint64_t particulars[4]);

/* What one read edge or more lead to from the module of this name (1 to 3 of the set, 4), as a row of eight words; none where the
 * name is not that of a member. Answers 1 where ALL-UNNAMED is among them, else 0. */
uint64_t saqhovune_transitive_reads(const uint8_t *set, size_t set_len, const uint64_t *words, size_t words_len,
                                    const uint8_t *name, size_t name_len, uint64_t row[8], uint64_t particulars[4]);

/* Writes the records of the module that a class file describes (2, 8, 2, 4). Answers the number of bytes written. */
uint64_t saqhovune_from_class_file(const uint8_t *file, size_t file_len, uint8_t *out, size_t out_len, uint64_t particulars[4]);

/* Writes the records of an automatic module (2, 1, 9, 10, 4). `given` says whether the manifest names it. Answers the number of
 * bytes written. */
uint64_t saqhovune_automatic_from_jar_name(const uint8_t *jar, size_t jar_len, bool given, const uint8_t *manifest,
                                           size_t manifest_len, const uint8_t *packages, size_t packages_len, uint8_t *out,
                                           size_t out_len, uint64_t particulars[4]);

#ifdef __cplusplus
}
#endif

#endif
