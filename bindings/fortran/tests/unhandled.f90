! A fault that nobody asks for ends the program: unhandled 0, or 1, has it at this place, and unhandled none at no place.
program unhandled
    use cvl
    implicit none
    character(8) :: word
    integer(c_int32_t) :: divisors(2) = 1, out(2)
    integer :: place

    call get_command_argument(1, word)
    if (word == "none") call cvl_div_wuz(divisors, divisors, out(:1))
    read (word, *) place
    divisors(place + 1) = 0
    call cvl_div_wuz([1_c_int32_t, 2_c_int32_t], divisors, out)
    print "(a)", "not reached"
end program unhandled
