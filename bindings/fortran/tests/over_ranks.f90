! Calls over ranks from Fortran, worked by hand: each rank has two elements, 3 and -1, and a segment crosses from each rank to the next.
program over_ranks
    use mpi
    use cvl
    use cvl_mpi
    implicit none
    type(cvl_ranks) :: ranks
    type(cvl_rank_segments) :: rows
    type(cvl_route) :: route
    type(cvl_status) :: status
    integer(c_int32_t) :: a(2), out(2), sums(1), index(2), pieces(2), total
    integer(c_int64_t) :: wide(2)
    integer :: again, rank, number, ierror

    call MPI_Init(ierror)
    call MPI_Comm_rank(MPI_COMM_WORLD, rank, ierror)
    call MPI_Comm_size(MPI_COMM_WORLD, number, ierror)
    call cvl_ranks_new(MPI_COMM_WORLD, ranks)
    a = [3, -1]
    call cvl_add_suz_mpi(ranks, a, out)
    call check("a scan", out(1) == 2 * rank .and. out(2) == 2 * rank + 3)
    call cvl_add_ruz_mpi(ranks, a, total)
    call check("a reduce", total == 2 * number)
    ! the first piece goes on but on rank 0; the second starts here, and its segment ends in the next rank
    pieces = 1
    if (rank == 0) then
        call cvl_rank_segments_new(ranks, pieces, .false., rows)
    else
        call cvl_rank_segments_new(ranks, pieces, .true., rows)
    end if
    pieces = 0 ! the descriptor has its own
    call check("what starts here", cvl_rank_segments_starts(rows) == merge(2, 1, rank == 0))
    if (rank == 0) then
        call cvl_add_rez_mpi(ranks, a, rows, out)
        call check("its sums", out(1) == 3 .and. out(2) == merge(-1, 2, number == 1))
    else
        call cvl_add_rez_mpi(ranks, a, rows, sums)
        call check("its sum", sums(1) == merge(-1, 2, rank == number - 1))
    end if
    ! the whole from its last place to its first
    index = [2 * number - 1 - 2 * rank, 2 * number - 2 - 2 * rank]
    call cvl_smp_puz_mpi(ranks, a, index, out)
    call check("a permute", out(1) == -1 .and. out(2) == 3)
    call cvl_route_new(ranks, index, 2, route)
    index = 0 ! and so has the route
    call cvl_route_back(route, a, out)
    call check("back by a route", out(1) == -1 .and. out(2) == 3)
    ! all of -1, then all of 3; and one key that all ranks add to
    call cvl_sort_mpi(ranks, a, out)
    call check("a sort", out(1) == merge(-1, 3, 2 * rank < number) .and. out(2) == merge(-1, 3, 2 * rank + 1 < number))
    index = [number - 1, number - 1]
    out = 10
    call cvl_combine_permute_int_mpi(ranks, CVL_ADD, a, index, out)
    call check("a sum by key", all(out == merge([10, 10 + 2 * number], [10 + 2 * number, 10], mod(number, 2) == 0)) .or. &
        rank /= (number - 1) / 2)
    index = [2 * number - 1 - 2 * rank, 2 * number - 2 - 2 * rank]
    if (rank == 0) then
        call cvl_seg_exact_sums_mpi(ranks, a, rows, wide)
        call check("its exact sums", wide(1) == 3)
    else
        call cvl_seg_exact_sums_mpi(ranks, a, rows, wide(1:1))
        call check("its exact sum", wide(1) == merge(-1, 2, rank == number - 1))
    end if
    if (rank == number - 1) index(2) = 2 * number
    call cvl_smp_puz_mpi(ranks, a, index, out, status)
    call check("a fault", status%number == CVL_INDEX_OUT_OF_RANGE .and. status%place == 2 * number - 1)
    ! what is freed twice is freed once
    do again = 1, 2
        call cvl_route_free(route)
        call cvl_rank_segments_free(rows)
        call cvl_ranks_free(ranks)
    end do
    call cvl_add_suz_mpi(ranks, a, out, status)
    call check("freed ranks", status%number == CVL_NO_DESCRIPTOR)
    call check("freed segments", cvl_rank_segments_starts(rows) == 0)
    if (rank == 0) print '(a, i0, a)', "calls over ", number, " ranks from Fortran: as they should be"
    call MPI_Finalize(ierror)

contains

    subroutine check(what, is_so)
        character(*), intent(in) :: what
        logical, intent(in) :: is_so

        if (is_so) return
        print '(a, i0, 2a)', "rank ", rank, ": ", what
        call MPI_Abort(MPI_COMM_WORLD, 1, ierror)
    end subroutine check
end program over_ranks
