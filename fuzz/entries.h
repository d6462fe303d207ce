/* The independent implementation's entries; their types are the archive's. */
#ifndef ENTRIES_H
#define ENTRIES_H

#include "into.h"
#include "pechuvo.h"

struct pechuvo_answer independent_check(FILE_OF(mesh), FILE_OF(table), FILE_OF(claim), int64_t decimals,
                                        uint8_t *report, size_t report_length);
struct pechuvo_numbers independent_check_numbers(LIST_OF(mesh), LIST_OF(table), LIST_OF(claim));
struct pechuvo_run independent_check_run(FILE_OF(mesh), FILE_OF(table), FILE_OF(claims), uint8_t *reports,
                                         size_t reports_length);
struct pechuvo_sizes independent_mesh_sizes(FILE_OF(mesh), FILE_OF(table));
struct pechuvo_book_answer independent_book_ask(struct pechuvo_book book, FILE_OF(mesh), FILE_OF(table),
                                                FILE_OF(claim));
struct pechuvo_book_answer independent_book_commit(struct pechuvo_book book, uint64_t count, FILE_OF(mesh),
                                                   FILE_OF(table), FILE_OF(claim));
struct pechuvo_next independent_next_strength(double k1, double l1, double k2, double l2);

#endif
