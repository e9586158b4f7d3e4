"""What stands in `include/cvl.h` and on its page beside the rows of the table: what all calls share, types, and the functions that
have no row."""

from table import MOST_ELEMENTS, MOST_OF_TEXT, MOST_STACK

# what is proved of the library from other languages, in the same words on the pages that stand alone, and in short on the others
FROM_C = (
    "The exported functions of the library are proved: each gives the value or the first fault of its definition, and a fault leaves your arrays as they "
    "were. On several threads a call is a list of steps, each an exported function too but for one that takes memory, and proved together: the parts of a "
    "step run once, in any order, and step after step, they give the result of the call. The C over them, which checks arguments and runs the steps on "
    "threads, is tested, and in part proved by another tool."
)
FROM_C_IN_SHORT = (
    "The functions below a call are [proved](proved.md), and so is that the steps of a call on several threads give its result. The C over them, which "
    "checks arguments and runs the steps, is tested, and in part proved by another tool."
)

ABOUT = (
    "cvl.h: the vector calls of CVL, the C Vector Library, on your own memory.",
    "For C99 to C23, and C++. Link with -lcvl, an archive and a shared object; docs/user/programs.md shows how.",
    "A call writes its result into your buffer, the last array, value or values that you pass. It returns a CvlStatus: number 0 if it is done, else the "
    "number of the first fault, with its place or -1. After a fault your buffers are as they were.",
    "Arrays come in the order of the call's operands. The number of elements, such as n, follows the last array that has so many; the functions of families "
    "take one after each array. Lengths of segments are one argument, a CvlLengths. Places and counts are int64_t, so that one outside 32 bits is a fault like any "
    "other.",
    "If the last argument is a count, the call writes its result at the front of your buffer and the length into the count; the rest of the buffer stays as it "
    "was. If the buffer is too short, the status is 7 LengthMismatch and the count is the length that you need; to ask for it, pass a buffer of no elements. "
    "After any other fault the count stays as it was.",
    "If a buffer shares memory with another argument, counts and single values included, the status is 102 Overlap and nothing is written. If a function says "
    '"In place" of an array, that array may be the buffer, from its first to its last element. Arrays that are only read may overlap. An array of 0 elements '
    "overlaps nothing, and its pointer may be null.",
    "A boolean is a byte, true unless it is 0; results are 0 and 1. You may pass an array of any type of bytes by a cast. If it has other bytes than 0 and 1, "
    "these calls copy it: packs, permutes, combining permutes (also the buffer that they join with), first senders, gathers of segments, appends, merges, "
    "transposes, searches for a true flag, scans, texts, and replaces and distributes in segments.",
    "No call can check the following, so make sure that",
    "  - a pointer leads to as many elements as you say, aligned, readable and, in a buffer, writable. Else the call may crash, or read or write other memory.",
    "  - while a call runs, no other thread writes its arrays or reads its buffers. Else the results are arbitrary, and the call may crash or write other "
    "memory.",
    f"  - the calling thread has CVL_MOST_STACK bytes of its stack left, {MOST_STACK // 1024} KiB. Else the call may crash, or write other memory.",
    "  - a signal handler that interrupts a call returns to it: no longjmp, siglongjmp, exception or pthread_exit. Else threads of the library go on using "
    "the call's memory, and cvl_set_threads may wait for ever.",
    "  - the program has one malloc, realloc and free. Else one allocator frees the memory of another.",
    "  - the lengths of a descriptor live as long as calls use it. Else the call may crash or read other memory.",
    "Everything else is checked, in every language: whatever lengths, indices, operators and buffers you pass, a call returns a status. Several threads may "
    "call at once.",
    "If there are several faults, the first of this list is reported. Places count from 0; 2, 7 and 13 have none unless a function says so.",
    "  - 102 Overlap; without a descriptor 101 NoDescriptor, before overlaps of other arguments;",
    "  - 2 UnknownCall if the number is no operator of the family;",
    f"  - 13 TooLong if the vector that sets the length of the call has more than {MOST_ELEMENTS} elements: its first vector, the flags of a pack, or the index "
    "of a permute, of first senders or of counts; also the buffer of a flat combining permute or of counts, and the starts of a gather of segments. On "
    "segments this comes after the faults by the lengths; calls on segments without such a vector check only the lengths;",
    "  - 13, 12 and 13 again by the lengths of segments;",
    "  - 7 LengthMismatch if vectors that belong together differ in length, or lengths do not add up to the vector that they cut; then if a buffer is not as "
    "long as the result, or shorter if there is a count;",
    "  - 100 NoResources if memory runs out;",
    "  - the faults of elements, in the order that the function has. A buffer that is too short for a text that is read comes last.",
    "These vectors may be longer: the source of a back permute and of a gather of segments, the defaults of a permute, the result of first senders, and the "
    "vectors of which one element is taken or replaced.",
    "Each call of a script has its name with the prefix cvl_, such as cvl_add_wuz, except input, nested, len_luz, len_lub and len_fos, for which you have "
    "arrays and lengths at hand. If you define CVL_SHORT_NAMES before you include the header, it also has the name without it.",
)

# what the header alone says, since its comments leave out what the manual has of each function
IN_HEADER = "The comments leave out 13 TooLong and 7 LengthMismatch, which follow from this list. The manual, from cvl(3) on, has them and an example of each function."

STATUS_TYPE = """/* What a call returns. */
typedef struct CvlStatus {
    uint32_t number; /* 0 if the call is done, the number of a fault, or 100 or more */
    int64_t place;   /* the place of the fault, counted from 0, or -1 */
} CvlStatus;"""

LENGTHS_TYPE = """/* The lengths of segments, one for each, empty ones too: CvlLengths rows = {lengths, segments}. */
typedef struct CvlLengths {
    const int32_t *lengths;
    size_t segments; /* how many there are */
} CvlLengths;"""

SEGMENTS_TYPE = """typedef struct CvlSegments {
    const int32_t *lengths; /* the caller's, which live as long as the descriptor is used */
    size_t segments;        /* how many there are */
    bool some;              /* whether there is a descriptor */
} CvlSegments;

/* What a descriptor starts as: CvlSegments rows = CVL_NO_SEGMENTS. */
#define CVL_NO_SEGMENTS {NULL, 0, false}"""

# Functions without a row: the name, the paragraphs of the comment, and the declaration.
OF_VERSIONS = (
    ("cvl_version", ("The version of the library; CVL_VERSION is that of the header.",), "const char *cvl_version(void);"),
    (
        "cvl_build",
        (
            'Which library this is: its version, the revision of its sources and the processors that it was built for, as "1.0.0 0123abcd x86-64-v3".',
        ),
        "const char *cvl_build(void);",
    ),
    (
        "cvl_fault_name",
        ('The name of a status, such as "DivideByZero"; "Unknown" if no status has that number.',),
        "const char *cvl_fault_name(uint32_t number);",
    ),
    (
        "cvl_explain",
        (
            'Writes why a call is not done, as "fault 10 IndexOutOfRange at 3: index[3] is 12, and source has 8 elements". Behind the colon it says which value, '
            "lengths or arrays are at fault, if the status is what the last call of this thread that was not done returned. That was found when the call "
            "returned: your arrays may have changed since, or be gone. Calls over ranks are not among them.",
            "At most `size` bytes are written, of which the last one is 0; with a size of 0 `text` may be null. Returns how long the whole text is, without the 0: "
            "0 for a call that is done.",
        ),
        "size_t cvl_explain(CvlStatus status, char *text, size_t size);",
    ),
)

THREADS = (
    "Calls run on the thread that calls. If cvl_set_threads or the variable CVL_NUM_THREADS asks for more threads, for the whole process, long calls run on "
    "them: from 262144 elements on, from 131072 bytes of a text that is read, and from 32768 elements whose text is written. Results and faults are the same. "
    "These calls stay on the calling thread: those that read one element, read a nested text or a text after another, scan after a carry, add up one vector exactly, "
    "make a range of another call, or look for one true flag; and a combining permute of booleans of which one in the buffer is neither 0 nor 1. On several threads a call may copy its buffer; if there is no "
    "memory for that, it runs on the calling thread.",
    "One call at a time has the threads. No other call waits for it, or for cvl_set_threads: it runs on its own thread. A call in parts on a pool of yours "
    "(cvl_parallel.h) uses only the threads of that pool.",
    "A thread that has no work for a second ends, so that it keeps no process alive. The next long call starts it again, with the processors and the priority "
    "of its own thread; if that fails, the call runs on the threads that there are.",
    "The threads block the signals that are sent to the process, so your handlers run on your own threads. They do not block SIGSEGV, SIGBUS, SIGFPE, SIGILL, "
    "SIGTRAP and SIGSYS: if you guard the pages of an array, your handler runs on the thread that touches one. A handler must not call the library, and must "
    "return. A thread that is cancelled finishes its call first.",
    "The child of a fork has none of the threads, and may set a number of its own. After _Fork or clone, which run no handlers of pthread_atfork, the library "
    "knows a child only by its process number, which may be its parent's in a new namespace.",
    "The threads end with the process, and the shared object stays loaded after dlclose. If your own shared object contains the archive and may be unloaded, "
    "link it with -z nodelete or call cvl_set_threads(1) first; a thread that was just ending by itself may then still be about to return.",
)
OF_THREADS = (
    (
        "cvl_set_threads",
        (
            "Sets how many threads long calls have, 1 to 64, the calling one included. Returns 0; EINVAL for any other number; or an error of POSIX, such as "
            "EAGAIN, if a thread cannot be started, and then the number stays. It waits for the call that has the threads, and for no later one. Several "
            "threads may call it at once.",
        ),
        "int cvl_set_threads(size_t threads);",
    ),
    (
        "cvl_threads",
        (
            "How many threads there are: what cvl_set_threads set last, else what CVL_NUM_THREADS says, else 1. If the variable is anything but a number from 1 "
            "to 64 in digits only, the nearest such number is taken, and 1 for what is no number; one line on standard error says so. The variable is "
            "read once, by the first call of either function or the first long call. Long calls start the threads; if one cannot be started, the number stays. "
            "It waits for no call. In the child of a fork the number is 1 until you set another; if nobody had asked before the fork, the child starts like any "
            "program.",
        ),
        "size_t cvl_threads(void);",
    ),
)
OF_FLAGS = (
    ("cvl_are_flags", ("Whether each byte is 0 or 1.",), "bool cvl_are_flags(const bool *flags, size_t flags_len);"),
    ("cvl_make_flags", ("Changes each byte that is not 0 to 1.",), "void cvl_make_flags(bool *flags, size_t flags_len);"),
)
OF_INDICES = (
    (
        "cvl_narrow_index",
        (
            "Each index in 32 bits, as calls take it. One outside 32 bits becomes -1, which is no place of any vector: the call returns 10 IndexOutOfRange for it, "
            "at the same place and in the same order as for any index that is out of range, unless it skips that index.",
            "Faults: 102 Overlap; 7 LengthMismatch if index and out differ in length.",
        ),
        "CVL_CHECKED CvlStatus cvl_narrow_index(const int64_t *index, size_t index_len, int32_t *out, size_t out_len);",
    ),
)

DESCRIPTORS = (
    "A descriptor names the lengths of segments and how many there are. It is plain memory that owns nothing: you may copy it and keep it constant, any "
    "number of threads may use it at once, and there is nothing to free. Start with CVL_NO_SEGMENTS; cvl_segments_new fills it. No call writes the lengths "
    "or the descriptor.",
    "The functions from cvl_segments_free to cvl_segments_numbers make descriptors and read them. Each of the others is the family on segments of its name, "
    "with a descriptor for the lengths: cvl_segments_int_scan is cvl_seg_int_scan. Each checks the lengths anew, so you may change them between calls. A buffer may "
    "overlap neither the lengths nor the descriptor. With CVL_NO_SEGMENTS or a null pointer a call returns 101 NoDescriptor.",
)
OF_DESCRIPTORS = (
    (
        "cvl_segments_free",
        ("Empties a descriptor; a null pointer is allowed. The lengths stay yours.",),
        "CvlStatus cvl_segments_free(CvlSegments *segments);",
    ),
    (
        "cvl_segments_new",
        (
            "Makes the descriptor of segments with these lengths. After a fault there is none; 102 Overlap leaves it as it was.",
            f"Faults: 13 TooLong if there are more than {MOST_ELEMENTS} lengths; 12 NegativeLength at the first below 0; 13 TooLong if the total is more than "
            f"{MOST_ELEMENTS}; else 101 NoDescriptor if `segments` is null.",
        ),
        "CVL_CHECKED CvlStatus cvl_segments_new(CvlLengths lengths, CvlSegments *segments);",
    ),
    (
        "cvl_segments_from_offsets",
        (
            "Makes the descriptor of segments that start at these offsets, of which the last is the end, as in a matrix of compressed rows. The lengths go into "
            "your buffer, which the descriptor names. After a fault the buffer is as it was, and there is no descriptor; 102 Overlap "
            "leaves both as they were.",
            f"Faults: 13 TooLong if there are more than {MOST_ELEMENTS} segments; 7 LengthMismatch if there is no offset or the first is not 0; 12 NegativeLength at "
            "the first segment that ends before it starts; 7 LengthMismatch if the buffer does not have one place for each segment; else 101 NoDescriptor if "
            "`segments` is null.",
        ),
        "CVL_CHECKED CvlStatus cvl_segments_from_offsets(const int32_t *offsets, size_t offsets_len, int32_t *lengths, size_t lengths_len,\n"
        "    CvlSegments *segments);",
    ),
    (
        "cvl_segments_total",
        ("How many elements the segments have in all.",),
        "CVL_CHECKED CvlStatus cvl_segments_total(const CvlSegments *segments, size_t *total);",
    ),
    (
        "cvl_segments_offsets",
        (
            "Where each segment starts, and last where the last one ends.",
            "Faults: those of lengths; 7 LengthMismatch if out does not have one place more than there are segments.",
        ),
        "CVL_CHECKED CvlStatus cvl_segments_offsets(const CvlSegments *segments, int32_t *out, size_t out_len);",
    ),
    (
        "cvl_segments_numbers",
        (
            "At each place the number of its segment, counted from 0.",
            "Faults: those of lengths; 7 LengthMismatch if out does not have as many places as the segments; 100 NoResources.",
        ),
        "CVL_CHECKED CvlStatus cvl_segments_numbers(const CvlSegments *segments, int32_t *out, size_t out_len);",
    ),
)
