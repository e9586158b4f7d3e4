"""What make and CMake build over an installed library, and which components of its package CMake finds."""

import sys
from unittest import mock

sys.dont_write_bytecode = True

from whole import Used, Whole


class Built(Used):
    """Programs that are built."""

    def test_make(self):
        self.install(self.root, "--no-python")
        self.write("Makefile", "program: program.c\n\tcc -o $@ program.c $(shell pkg-config --cflags --libs cvl)\n")
        self.run_in_shell("make -s program; ./program", status=7, LD_LIBRARY_PATH=f"{self.root}/lib")

    def test_cmake(self):
        self.install(self.root, "--no-python")
        self.write(
            "CMakeLists.txt",
            """cmake_minimum_required(VERSION 3.13)
project(program C)
find_package(cvl 1.0 REQUIRED)
foreach(target cvl cvl_static)
  add_executable(of_${target} program.c)
  target_link_libraries(of_${target} PRIVATE cvl::${target})
endforeach()
""",
        )
        self.run_in_shell('cmake -S . -B build -DCMAKE_PREFIX_PATH="$ROOT" && cmake --build build', ROOT=str(self.root))
        for target in ("cvl", "cvl_static"):
            self.run_in_shell(f"build/of_{target}", status=7)

    def test_components_of_cmake(self):
        with mock.patch.object(Used, "build", Whole.build):
            self.install(self.root, "--no-python")
        self.write(
            "CMakeLists.txt",
            """cmake_minimum_required(VERSION 3.13)
project(asked NONE)
find_package(cvl QUIET COMPONENTS nonsense)
message(STATUS "one: ${cvl_FOUND}, ${cvl_NOT_FOUND_MESSAGE}, ${cvl_nonsense_FOUND}")
find_package(cvl QUIET COMPONENTS cvl OPTIONAL_COMPONENTS nonsense)
message(STATUS "and another at will: ${cvl_FOUND}, ${cvl_NOT_FOUND_MESSAGE}")
find_package(cvl REQUIRED OPTIONAL_COMPONENTS nonsense)
message(STATUS "one at will: ${cvl_FOUND}, ${cvl_nonsense_FOUND}")
find_package(cvl REQUIRED)
get_target_property(linked cvl::cvl_static INTERFACE_LINK_LIBRARIES)
message(STATUS "none: ${cvl_FOUND}, ${linked}")
""",
        )
        told = self.run_in_shell('cmake -S . -B build -DCMAKE_PREFIX_PATH="$ROOT" 2>&1', ROOT=str(self.root))
        why = "the package cvl has no component {} here"
        wanted = [f"-- one: 0, {why.format('nonsense')}, FALSE", f"-- and another at will: 0, {why.format('cvl')}"]
        wanted += ["-- one at will: 1, FALSE", "-- none: 1, -pthread"]
        self.assertEqual(told.split("\n")[: len(wanted)], wanted)

    def test_the_component_of_calls_over_ranks_is_found_if_it_was_installed(self):
        # an MPI that has nothing but its target
        target = "if(NOT TARGET MPI::MPI_C)\n  add_library(MPI::MPI_C INTERFACE IMPORTED)\nendif()\n"
        self.write("modules/FindMPI.cmake", f"set(MPI_FOUND TRUE)\n{target}")
        self.write(
            "CMakeLists.txt",
            """cmake_minimum_required(VERSION 3.13)
project(asked NONE)
find_package(cvl QUIET COMPONENTS mpi)
message(STATUS "asked for: ${cvl_FOUND}, ${cvl_NOT_FOUND_MESSAGE}, ${cvl_mpi_FOUND}")
find_package(cvl REQUIRED OPTIONAL_COMPONENTS mpi)
message(STATUS "at will: ${cvl_FOUND}, ${cvl_mpi_FOUND}")
if(TARGET cvl::mpi)
  get_target_property(library cvl::mpi IMPORTED_LOCATION)
  file(READ "${library}" text)
  message(STATUS "a library: ${text}")
endif()
""",
        )
        library = self.root / "lib/libcvl_mpi.so.1.0.0"
        found = ["-- asked for: 1, , TRUE", "-- at will: 1, TRUE", f"-- a library: {library.name}"]
        self.find_ranks(
            "not_installed", ["-- asked for: 0, the package cvl has no component mpi here, FALSE", "-- at will: 1, FALSE"]
        )
        self.find_ranks("installed", found, "--mpi")
        library.unlink()
        why = f"{library} is not there, which was installed with this package"
        self.find_ranks("lost", [f"-- asked for: 0, {why}, FALSE", "-- at will: 1, FALSE"], install=False)

    def find_ranks(self, to, wanted, *options, install=True):
        """Installs with these options, and compares what CMake reports."""
        if install:
            with mock.patch.object(Used, "build", Whole.build):
                self.install(self.root, "--no-python", *options)
        asks = 'cmake -S . -B "$TO" -DCMAKE_PREFIX_PATH="$ROOT" -DCMAKE_MODULE_PATH="$PWD/modules" 2>&1'
        told = self.run_in_shell(asks, ROOT=str(self.root), TO=to)
        self.assertEqual([line for line in told.split("\n") if line.startswith("-- a")], wanted)
