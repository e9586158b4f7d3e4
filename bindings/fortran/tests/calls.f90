! Each subroutine on the example of its call, in place, and through its family, on arrays and on each second element of longer
! ones: calls FILE, where FILE has the examples that bindings/generate writes for each build. calls.inc has a line for each one.
module examples
    use cvl
    implicit none

    ! An operand of a call: what the call does with it, and what it holds, by its kind; marks are ints.
    type operand
        character(16) :: role, name, kind
        integer(c_int32_t), allocatable :: ints(:)
        logical(c_bool), allocatable :: flags(:)
        integer(c_int8_t), allocatable :: bytes(:)
        integer(c_int64_t), allocatable :: sums(:)
        character(:), allocatable :: text
        integer(c_int32_t) :: int = 0
        logical(c_bool) :: flag = .false.
        integer(c_int64_t) :: number = 0
        integer(c_size_t) :: count = 0
    end type operand

    integer, parameter :: most_operands = 8
    character(64) :: name, family
    integer(c_int32_t) :: op
    type(operand) :: given(most_operands), before(most_operands)
    integer :: operands = 0, tried = 0, wrong = 0

    ! how many places the elements of arrays are apart
    integer :: step = 1

contains

    ! Makes the operand hold these numbers.
    subroutine hold(one, numbers)
        type(operand), intent(inout) :: one
        integer(c_int64_t), intent(in) :: numbers(:)
        integer :: k

        one%ints = int(numbers, c_int32_t)
        one%flags = logical(numbers /= 0, c_bool)
        one%bytes = int(numbers - merge(256_c_int64_t, 0_c_int64_t, numbers > 127), c_int8_t)
        one%sums = numbers
        one%text = repeat(" ", size(numbers))
        do k = 1, size(numbers)
            one%text(k:k) = char(int(iand(numbers(k), 127_c_int64_t)))
        end do
        if (size(numbers) /= 1) return
        one%int = one%ints(1)
        one%flag = one%flags(1)
        one%number = numbers(1)
        one%count = int(numbers(1), c_size_t)
    end subroutine hold

    ! Reads an operand of the example, or what the last one holds before the call.
    subroutine read_operand(line)
        character(*), intent(in) :: line
        character(16) :: role, named, kind, extent
        integer(c_int64_t), allocatable :: numbers(:)
        integer :: count

        read (line, *) role, named, kind, extent, count
        allocate (numbers(count))
        read (line, *) role, named, kind, extent, count, numbers
        if (role == "before") then
            call hold(before(operands), numbers)
            return
        end if
        operands = operands + 1
        given(operands)%role = role
        given(operands)%name = named
        given(operands)%kind = kind
        call hold(given(operands), numbers)
        before(operands) = given(operands)
        if (is_written(given(operands))) before(operands) = other(given(operands))
    end subroutine read_operand

    ! Whether a call writes an operand.
    pure logical function is_written(one)
        type(operand), intent(in) :: one

        is_written = one%role == "room" .or. one%role == "single" .or. one%role == "told"
    end function is_written

    ! An operand with other numbers than the example has.
    function other(one) result(before)
        type(operand), intent(in) :: one
        type(operand) :: before

        before = one
        before%ints = ieor(one%ints, 1_c_int32_t)
        before%flags = .not. one%flags
        before%bytes = ieor(one%bytes, 1_c_int8_t)
        before%sums = ieor(one%sums, 1_c_int64_t)
        before%text = repeat("?", len(one%text))
        before%int = ieor(one%int, 1_c_int32_t)
        before%flag = .not. one%flag
        before%number = ieor(one%number, 1_c_int64_t)
        before%count = ieor(one%count, 1_c_size_t)
    end function other

    ! The operand with its elements `step` places apart; between them stand numbers that no call may change.
    function spaced(one) result(found)
        type(operand), intent(in) :: one
        type(operand) :: found

        found = one
        deallocate (found%ints, found%flags, found%bytes, found%sums)
        allocate (found%ints(step * size(one%ints)), source=77_c_int32_t)
        allocate (found%flags(step * size(one%flags)), source=.true._c_bool)
        allocate (found%bytes(step * size(one%bytes)), source=77_c_int8_t)
        allocate (found%sums(step * size(one%sums)), source=77_c_int64_t)
        found%ints(::step) = one%ints
        found%flags(::step) = one%flags
        found%bytes(::step) = one%bytes
        found%sums(::step) = one%sums
    end function spaced

    ! Whether an operand holds what another one does.
    logical function agree(found, wanted)
        type(operand), intent(in) :: found, wanted

        select case (wanted%kind)
        case ("ints", "marks")
            agree = all(found%ints == wanted%ints)
        case ("bytes")
            agree = all(found%bytes == wanted%bytes)
        case ("sums")
            agree = all(found%sums == wanted%sums)
        case ("flags")
            agree = all(logical(found%flags .eqv. wanted%flags))
        case ("text")
            agree = found%text == wanted%text
        case ("int")
            agree = found%int == wanted%int
        case ("flag")
            agree = logical(found%flag .eqv. wanted%flag)
        case ("sum")
            agree = found%number == wanted%number
        case default
            agree = found%count == wanted%count
        end select
    end function agree

    ! Makes the call of this name on operands, if there is one, and says which operand was the room, or 0.
    subroutine make(key, o, status, place, made)
        character(*), intent(in) :: key
        type(operand), intent(inout) :: o(:)
        type(cvl_status), intent(out) :: status
        integer, intent(out) :: place
        logical, intent(out) :: made

        place = 0
        made = .true.
        select case (key)
        include "calls.inc"
        case default
            made = .false.
        end select
    end subroutine make

    ! Tries a subroutine on the example, which has to be there if it is asked for.
    subroutine try(key, asked)
        character(*), intent(in) :: key
        logical, intent(in) :: asked
        type(operand) :: o(most_operands)
        type(cvl_status) :: status
        logical :: agrees, made
        integer :: k, place

        do k = 1, operands
            o(k) = spaced(before(k))
        end do
        call make(key, o(:operands), status, place, made)
        if (.not. (made .or. asked)) return
        tried = tried + 1
        agrees = made .and. status%number == CVL_DONE
        do k = 1, operands
            if (is_written(given(k))) agrees = agrees .and. agree(o(merge(place, k, place > 0)), spaced(given(k)))
        end do
        if (agrees) return
        wrong = wrong + 1
        print "(4a, i0, a, i0)", key, " is not as the example of ", trim(name), ", or is not there; with the status ", &
            status%number, ", elements apart by ", step
    end subroutine try

    ! Tries the subroutine of the example, and those of its family, on elements side by side and on each second one.
    subroutine try_all()
        if (operands == 0) return
        do step = 1, 2
            call try(trim(name), asked=.true.)
            call try(trim(name) // " in", asked=.false.)
            if (family /= name) call try(trim(family), asked=.true.)
            if (family /= name) call try(trim(family) // " in", asked=.false.)
        end do
        operands = 0
    end subroutine try_all
end module examples

program calls
    use examples
    implicit none
    character(4096) :: file, line
    character :: mark
    integer :: unit, error

    call get_command_argument(1, file)
    open (newunit=unit, file=trim(file), status="old", action="read")
    do
        read (unit, "(a)", iostat=error) line
        if (error /= 0) exit
        if (line(1:1) == "=") then
            call try_all()
            read (line, *) mark, name, family, op
        else if (line /= "" .and. line(1:1) /= "#") then
            call read_operand(trim(line))
        end if
    end do
    call try_all()
    if (wrong > 0 .or. tried == 0) error stop 1
    print "(i0, a)", tried, " subroutines on their examples"
end program calls
