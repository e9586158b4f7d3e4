! What the subroutines tell and leave where a call has no value, and what they take: expected values are worked out by hand.
program faults
    use cvl
    implicit none
    integer :: count_of_wrong = 0

    call fault_of_an_element
    call lengths_that_do_not_agree
    call an_operator_of_another_family
    call arrays_that_overlap
    call arrays_of_no_elements
    call sections
    call narrow_and_wide_numbers
    call packs
    call texts
    call names
    call threads
    if (count_of_wrong > 0) error stop 1
    print "(a)", "faults are told"
contains
    subroutine wanted(what, holds)
        character(*), intent(in) :: what
        logical, intent(in) :: holds

        if (holds) return
        count_of_wrong = count_of_wrong + 1
        print "(2a)", "not so: ", what
    end subroutine wanted

    logical function is(status, number, place)
        type(cvl_status), intent(in) :: status
        integer(c_int32_t), intent(in) :: number
        integer, intent(in) :: place

        is = status%number == number .and. status%place == place
    end function is

    subroutine fault_of_an_element
        type(cvl_status) :: status
        integer(c_int32_t) :: out(3), a(3)

        out = 77
        call cvl_div_wuz([7_c_int32_t, 8_c_int32_t, 9_c_int32_t], [1_c_int32_t, 2_c_int32_t, 0_c_int32_t], out, status)
        call wanted("a quotient by 0 is told at its place", is(status, CVL_DIVIDE_BY_ZERO, 2))
        call wanted("the room is as it was", all(out == 77))
        a = [7, 8, 9]
        call cvl_div_wuz_in(a, [1_c_int32_t, 0_c_int32_t, 0_c_int32_t], status)
        call wanted("a quotient in place is told at the first place", is(status, CVL_DIVIDE_BY_ZERO, 1))
        call wanted("in place, the vector is as it was", all(a == [7, 8, 9]))
    end subroutine fault_of_an_element

    subroutine lengths_that_do_not_agree
        type(cvl_status) :: status
        integer(c_int32_t) :: a(3) = [3, 1, 4], out(2)

        out = 77
        call cvl_add_suz(a, out, status)
        call wanted("a room that is too short is told", is(status, CVL_LENGTH_MISMATCH, -1) .and. all(out == 77))
        call cvl_add_wuz(a, a(:2), out, status)
        call wanted("vectors that do not agree are told", is(status, CVL_LENGTH_MISMATCH, -1) .and. all(out == 77))
        call cvl_add_rez(a, [1_c_int32_t, 1_c_int32_t], out, status)
        call wanted("lengths that do not add up are told", is(status, CVL_LENGTH_MISMATCH, -1) .and. all(out == 77))
        call cvl_add_rez(a, [4_c_int32_t, -1_c_int32_t], out, status)
        call wanted("a length below 0 is told", is(status, CVL_NEGATIVE_LENGTH, 1) .and. all(out == 77))
    end subroutine lengths_that_do_not_agree

    subroutine an_operator_of_another_family
        type(cvl_status) :: status
        integer(c_int32_t) :: a(2) = [3, 1], out(2)

        out = 77
        call cvl_scan(CVL_GRT, a, out, status)
        call wanted("a scan has no comparisons", is(status, CVL_UNKNOWN_CALL, -1) .and. all(out == 77))
    end subroutine an_operator_of_another_family

    subroutine arrays_that_overlap
        type(cvl_status) :: status
        integer(c_int32_t) :: a(4) = [1, 2, 3, 4]

        call cvl_add_suz(a(1:3), a(2:4), status)
        call wanted("an overlap is told", is(status, CVL_OVERLAP, -1) .and. all(a == [1, 2, 3, 4]))
    end subroutine arrays_that_overlap

    subroutine arrays_of_no_elements
        type(cvl_status) :: status
        integer(c_int32_t) :: none(0), out, sums(2)

        call cvl_add_suz(none, none, status)
        call wanted("a scan of nothing is done", is(status, CVL_DONE, -1))
        out = 77
        call cvl_add_ruz(none, out, status)
        call wanted("the sum of nothing is 0", is(status, CVL_DONE, -1) .and. out == 0)
        sums = 77
        call cvl_add_rez(none, [0_c_int32_t, 0_c_int32_t], sums, status)
        call wanted("the sums of empty segments are 0", is(status, CVL_DONE, -1) .and. all(sums == 0))
    end subroutine arrays_of_no_elements

    ! Sections of arrays, whose elements do not lie side by side.
    subroutine sections
        type(cvl_status) :: status
        integer(c_int32_t) :: matrix(2, 3) = reshape([1, 2, 3, 4, 5, 6], [2, 3]), out(2, 3)

        out = 77
        call cvl_add_suz(matrix(2, :), out(1, :), status)
        call wanted("a row of a matrix is scanned into a row", is(status, CVL_DONE, -1) .and. all(out(1, :) == [0, 2, 6]))
        call wanted("the other row is as it was", all(out(2, :) == 77))
    end subroutine sections

    subroutine narrow_and_wide_numbers
        type(cvl_status) :: status
        integer(c_int32_t) :: a(3) = [4, 5, 6], out

        out = 77
        call cvl_ext_vuz(a, 2, out, status)
        call wanted("a place of 32 bits", is(status, CVL_DONE, -1) .and. out == 6)
        call cvl_ext_vuz(a, 1_c_int64_t, out, status)
        call wanted("a place of 64 bits", is(status, CVL_DONE, -1) .and. out == 5)
        call cvl_ext_vuz(a, 4294967296_c_int64_t, out, status)
        call wanted("a place beyond 32 bits is told", is(status, CVL_INDEX_OUT_OF_RANGE, 0) .and. out == 5)
    end subroutine narrow_and_wide_numbers

    subroutine packs
        type(cvl_status) :: status
        integer(c_int32_t) :: values(4) = [5, 6, 7, 8], out(3)
        logical(c_bool) :: flags(4)
        integer(c_size_t) :: count

        flags = mod(values, 2) == 1
        out = 77
        count = 99
        call cvl_pck_luz(values, flags, out, count, status)
        call wanted("a pack fills the front of its room", is(status, CVL_DONE, -1) .and. count == 2 .and. all(out == [5, 7, 77]))
        flags = .true.
        call cvl_pck_luz(values, flags, out, count, status)
        call wanted("a pack tells how much room it needs", is(status, CVL_LENGTH_MISMATCH, -1) .and. count == 4)
        call wanted("a pack without room leaves it", all(out == [5, 7, 77]))
    end subroutine packs

    subroutine texts
        type(cvl_status) :: status
        integer(c_int32_t) :: out(3), lengths(2)
        integer(c_size_t) :: count, segments
        character(16) :: text

        call cvl_read("5 -1 x", out, count, status)
        call wanted("a word that is no number is told", is(status, CVL_BAD_INPUT, 2))
        call cvl_read("[[1 2] [3]]", out, count, lengths, segments, status)
        call wanted("a nested text is read", is(status, CVL_DONE, -1) .and. all(out == [1, 2, 3]) .and. all(lengths == [2, 1]))
        text = "?"
        call cvl_write([0_c_int32_t, -3_c_int32_t], text, count, status)
        call wanted("a text is written", is(status, CVL_DONE, -1) .and. count == 6 .and. text == "[0 -3]")
    end subroutine texts

    ! More threads than there may be, and a call that is long enough for several.
    subroutine threads
        integer(c_int32_t), parameter :: most = 300000
        integer(c_int32_t), allocatable :: a(:), out(:)
        integer :: error

        call wanted("there is one thread at first", cvl_threads() == 1)
        call cvl_set_threads(65, error)
        call wanted("65 threads are too many", error /= 0 .and. cvl_threads() == 1)
        call cvl_set_threads(-1, error)
        call wanted("-1 threads are none", error /= 0 .and. cvl_threads() == 1)
        call cvl_set_threads(3)
        call wanted("there are three threads", cvl_threads() == 3)
        allocate (a(most), out(most), source=1_c_int32_t)
        call cvl_add_suz(a, out)
        call wanted("a long scan by three threads", out(1) == 0 .and. all(out(2:) - out(:most - 1) == 1))
        call cvl_set_threads(1)
    end subroutine threads

    subroutine names
        character(16) :: version

        write (version, "(i0, 2('.', i0))") CVL_VERSION_MAJOR, CVL_VERSION_MINOR, CVL_VERSION_PATCH
        call wanted("the module and the library have one version", version == cvl_version())
        call wanted("the build begins with the version", index(cvl_build(), trim(version) // " ") == 1)
        call wanted("a fault has its name", cvl_fault_name(CVL_NO_RESOURCES) == "NoResources")
        call wanted("another number has none", cvl_fault_name(3) == "Unknown")
    end subroutine names
end program faults
