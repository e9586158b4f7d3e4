// A program without exceptions: calls by a status, and a fault that nobody looks at, which ends the program.
#include "trying.hpp"

#include <csignal>
#include <sys/wait.h>
#include <unistd.h>

int main() {
    cvl::Status status;
    const std::vector<std::int32_t> sums = cvl::add_suz({3, 1, 4}, status);
    LOOK(status.ok() && sums.size() == 3 && sums[2] == 4);
    (void)cvl::div_wuz({7}, {0}, status);
    LOOK(std::strcmp(status.what(), "cvl::div_wuz: fault 8 DivideByZero at 0: b[0] is 0") == 0);
    LOOK(cvl::add_ruz({1, 2}, status) == 0 && status.number() == cvl::faults::divide_by_zero);
    status.clear();
    const cvl::Segments rows({2, 1}, status);
    LOOK(cvl::add_rez(sums, rows, status).size() == 2 && status.ok());
    const auto run = [](std::size_t parts, cvl::Part part) {
        for (std::size_t k = 0; k < parts; k++) part(k);
    };
    {
        const cvl::OnPool on(3, run);
        LOOK(cvl::dis_vuz(5, 600000, status).back() == 5);
    }
    int ends[2], ended = 0;
    LOOK(pipe(ends) == 0);
    const pid_t child = fork();
    if (child == 0) {
        dup2(ends[1], 2);
        (void)cvl::div_wuz({7}, {0});
        _exit(0);
    }
    close(ends[1]);
    char said[200] = {};
    const ssize_t size = read(ends[0], said, sizeof said - 1);
    LOOK(size > 0 && std::strcmp(said, "cvl::div_wuz: fault 8 DivideByZero at 0: b[0] is 0\n") == 0);
    LOOK(waitpid(child, &ended, 0) == child && WIFSIGNALED(ended) && WTERMSIG(ended) == SIGABRT);
    std::printf("%d facts without exceptions\n", looked_at);
}
