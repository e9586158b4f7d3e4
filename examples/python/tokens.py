"""The tokens of a text, all at once: words, numbers and single signs, without white space and without comments, which go from a # to
the end of the line.

Letters and digits side by side are one token, whose first byte says whether it is a word or a number. Lines are segments, so that a
scan by segments says what stands behind a #.
"""

import numpy

import cvl

BLANK, SIGN, NUMBER, WORD = range(4)


def class_of(byte):
    """The class of a byte. Bytes above 127 are letters, so that words of UTF-8 stay whole."""
    sign = chr(byte)
    if byte > 127 or sign.isalpha() or sign == "_":
        return WORD
    return NUMBER if sign.isdigit() else BLANK if sign in " \t\n\v\f\r" else SIGN


CLASSES = cvl.as_ints([class_of(byte) for byte in range(256)])
SHOWS, GOES_ON = CLASSES != BLANK, CLASSES >= NUMBER
WRONG = SHOWS & [byte < 32 or byte == 127 for byte in range(256)]


def comments_of(characters):
    """Flags what stands in a comment. Whatever follows the last end of a line is a line, too."""
    n = len(characters)
    ends = cvl.pck_luz(cvl.ind_luz(1, 1, n), cvl.eql_wuz(characters, ord("\n")))
    lines = cvl.Segments.from_offsets(numpy.concatenate([[0], ends, [n]]))
    begins = cvl.eql_wuz(characters, ord("#"))
    return cvl.ior_wub(begins, cvl.ior_seb(begins, lines))


def tokens_of(text):
    """Where each token of some bytes begins, how many bytes it has, and its class; and the first byte that no text has, or -1."""
    characters = cvl.ints_from_bytes(text)
    n = len(characters)
    code = cvl.not_wub(comments_of(characters))
    shows, goes_on, wrong = (cvl.and_wub(cvl.bck_pub(table, characters), code) for table in (SHOWS, GOES_ON, WRONG))
    # whether each byte, and what is behind the last one, goes on with the token of the byte before it
    joined = numpy.zeros(n + 1, bool)
    joined[1:n] = cvl.and_wub(goes_on[1:], goes_on[:-1])
    apart = cvl.not_wub(joined)
    starts = cvl.pck_luz(cvl.ind_luz(0, 1, n), cvl.and_wub(shows, apart[:-1]))
    ends = cvl.pck_luz(cvl.ind_luz(1, 1, n), cvl.and_wub(shows, apart[1:]))
    classes = cvl.bck_puz(CLASSES, cvl.bck_puz(characters, starts))
    return starts, cvl.sub_wuz(ends, starts), classes, cvl.first_true(wrong)


def main():
    text = b"y1 = add(x, 40) # the sum\n\nwrite(y1)"
    starts, lengths, classes, wrong = tokens_of(text)
    for start, length, kind in zip(starts, lengths, classes):
        print(("", "sign", "number", "word")[kind], text[start : start + length].decode())
    print("wrong byte:", wrong)


if __name__ == "__main__":
    main()
