/* texts.h: what texts of vectors and of nests over ranks share. */
#ifndef CVL_MPI_TEXTS_H
#define CVL_MPI_TEXTS_H

#include "ranks.h"

/* The number of calls on texts, by which ranks see that they make the same one. */
enum { CVL_CALL_TEXT = 0xfa00, CVL_CALL_NEST_READ = CVL_CALL_TEXT + 7, CVL_CALL_NEST_WRITE = CVL_CALL_TEXT + 9 };

static inline bool cvl_is_white(char byte) { return byte == ' ' || byte == '\t' || byte == '\n' || byte == '\r'; }

/* A rank's part of a text: a bracket before the first and behind the last, and a blank between two elements of two ranks. */
typedef struct CvlWritten {
    char *whole;        /* of the rank's own elements, in brackets */
    size_t length;      /* of that */
    size_t front, back; /* bytes within the brackets that stand in other ranks' parts */
    bool first, last, follows;
} CvlWritten;

CVL_HIDDEN size_t cvl_length_of(const CvlWritten *w);
CVL_HIDDEN void cvl_put_text(const CvlWritten *w, char *text);

#endif
