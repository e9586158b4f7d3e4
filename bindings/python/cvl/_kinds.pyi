# The kinds of what calls take and give, which annotations alone name.

from array import array
from mmap import mmap
from typing import Union

import numpy
from numpy.typing import NDArray

IntArray = NDArray[numpy.int32]
FlagArray = NDArray[numpy.bool_]
ByteArray = NDArray[numpy.uint8]
SumArray = NDArray[numpy.int64]
Ints = Union[IntArray, array[int], memoryview]
Indices = Union[Ints, NDArray[numpy.int64]]
Flags = Union[FlagArray, memoryview]
Bytes = Union[ByteArray, bytes, bytearray, memoryview, mmap]
Sums = Union[SumArray, array[int], memoryview]
Marks = Union[NDArray[numpy.uint32], array[int], memoryview]
Text = Union[str, bytes, bytearray, memoryview, mmap]
