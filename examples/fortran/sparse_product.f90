! The product of a sparse matrix and a vector: the rows are segments, of the lengths 2, 0 and 2.
program sparse_product
    use cvl
    implicit none
    integer(c_int32_t) :: rows(3) = [2, 0, 2], columns(4) = [0, 2, 1, 2], entries(4) = [2, 1, 3, 4], x(3) = [1, 2, 3]
    integer(c_int32_t) :: fetched(4), y(3)
    type(cvl_status) :: status

    call cvl_bck_puz(x, columns, fetched)
    call cvl_mul_wuz_in(fetched, entries)
    call cvl_add_rez(fetched, rows, y)
    print "(a, *(1x, i0))", "y =", y

    columns(4) = 3
    call cvl_bck_puz(x, columns, fetched, status)
    print "(a, i0, 3a, i0)", "a column outside the vector: fault ", status%number, " ", cvl_fault_name(status%number), &
        " at ", status%place
end program sparse_product
