/* The calls whose answer is a struct in memory, with its place as an argument: on x86-64 the caller hands that place
   over before all arguments. So the answer too can be lent at a closed page. */
#ifndef INTO_H
#define INTO_H

#include "pechuvo.h"

/* A file or a list of numbers: where it begins and how long it is. */
#define FILE_OF(name) const uint8_t *name, size_t name##_length
#define LIST_OF(name) const int64_t *name, size_t name##_count

void check_numbers_into(struct pechuvo_numbers *answer, LIST_OF(mesh), LIST_OF(table), LIST_OF(claim))
    __asm__("pechuvo_check_numbers");
void mesh_sizes_into(struct pechuvo_sizes *answer, FILE_OF(mesh), FILE_OF(table)) __asm__("pechuvo_mesh_sizes");
void book_ask_into(struct pechuvo_book_answer *answer, struct pechuvo_book book, FILE_OF(mesh), FILE_OF(table),
                   FILE_OF(claim)) __asm__("pechuvo_book_ask");
void book_commit_into(struct pechuvo_book_answer *answer, struct pechuvo_book book, uint64_t count, FILE_OF(mesh),
                      FILE_OF(table), FILE_OF(claim)) __asm__("pechuvo_book_commit");

#endif
