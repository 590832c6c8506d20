"""Small programs, each with a call of docs/WORKERS.md, "What to call instead": those that a worker
can't make, and some that work, whose programs print `ok`."""
import dataclasses


@dataclasses.dataclass(frozen=True)
class Call:
    """A program that makes a call, and its language."""
    language: str
    source: str


def in_c(headers, statements):
    """A program in C with some headers of the library."""
    includes = "".join(f"#include <{it}.h>\n" for it in ["stdio", *headers.split()])
    return Call("C", f"{includes}int main(void) {{ {statements} return 0; }}\n")


def in_rust(expression):
    """A program in Rust that prints what comes of an expression."""
    return Call("Rust", f'fn main() {{ println!("{{:?}}", {expression}); }}\n')


def ok_in_c(headers, statements, condition):
    """A program in C that prints `ok` where a condition holds after some statements."""
    return in_c(headers, f'{statements} puts({condition} ? "ok" : "wrong");')


def ok_in_rust(condition):
    """A program in Rust that prints `ok` where a condition holds."""
    return Call("Rust", f'fn main() {{ println!("{{}}", if {condition} {{ "ok" }} '
                        'else { "wrong" }); }\n')


CALLS = {
    "scanf": in_c("", 'int n; scanf("%d", &n);'),
    "sscanf": in_c("", 'char s[9]; int n; fgets(s, 9, stdin); sscanf(s, "%d", &n);'),
    "strtod": in_c("stdlib", "char s[9]; fgets(s, 9, stdin); strtod(s, NULL);"),
    "printf": in_c("", 'printf("%f\\n", 1.5);'),
    "%f": in_c("", 'printf("%f\\n", 1.5);'),
    "double": in_c("stdlib", 'char s[9]; fgets(s, 9, stdin); double n = atoi(s); '
                             'printf("%d\\n", (int)(n * 1.5));'),
    "f64": in_rust("(std::env::args().count() as f64 * 1.5) as u32"),
    "sleep": in_c("unistd", "sleep(1);"),
    "nanosleep": in_c("time", "struct timespec t = {1, 0}; nanosleep(&t, NULL);"),
    "std::thread::sleep": in_rust("std::thread::sleep(std::time::Duration::from_secs(1))"),
    "poll": in_c("poll", "struct pollfd p = {0, POLLIN, 0}; poll(&p, 1, 0);"),
    "link": in_c("unistd", 'link("a", "b");'),
    "symlink": in_c("unistd", 'symlink("a", "b");'),
    "std::fs::File::open": in_rust('std::fs::File::open("a")'),
    "std::fs::File::create": in_rust('std::fs::File::create("a")'),
    "std::fs::OpenOptions": in_rust(
        'std::fs::OpenOptions::new().append(true).create(true).open("a")'),
    "std::fs::read_to_string": in_rust('std::fs::read_to_string("a")'),
    "std::fs::write": in_rust('std::fs::write("a", "b")'),
    "std::fs::read_dir": in_rust('std::fs::read_dir("/")'),
    "std::thread::spawn": in_rust("std::thread::spawn(|| 1).join().unwrap()"),
    "socket": in_c("sys/socket", "return socket(AF_INET, SOCK_STREAM, 0);"),
    "system": in_c("stdlib", 'return system("ls");'),
    "clock": in_c("time", 'printf("%d\\n", (int)clock());'),
    "fopen": ok_in_c("", 'FILE *f = fopen("a", "w+"); fputs("b", f); rewind(f);',
                     "fgetc(f) == 'b'"),
    "getline": ok_in_c("", "char *s = NULL; size_t n = 0;", "getline(&s, &n, stdin) == 4"),
    "opendir": ok_in_c("dirent", 'fopen("a", "w"); DIR *d = opendir("/");', "readdir(d) != NULL"),
    "qsort": Call("C", "#include <stdio.h>\n#include <stdlib.h>\n"
                       "static int by(const void *a, const void *b) "
                       "{ return *(const int *)a - *(const int *)b; }\n"
                       "int main(void) { int n[] = {3, 1, 2}; qsort(n, 3, sizeof *n, by); "
                       'puts(n[0] == 1 && n[2] == 3 ? "ok" : "wrong"); }\n'),
    "time": ok_in_c("time", "", "time(NULL) > 0"),
    "getentropy": ok_in_c("unistd", "char s[9];", "getentropy(s, 9) == 0"),
    "HashMap": ok_in_rust('std::collections::HashMap::from([("a", 1)])["a"] == 1'),
    "Instant": ok_in_rust("std::time::Instant::now().elapsed().as_secs() < 60"),
    "std::fs::create_dir": ok_in_rust(
        'std::fs::create_dir("a").is_ok() && std::fs::metadata("a").unwrap().is_dir()'),
    "std::fs::rename": ok_in_rust(
        'std::fs::create_dir("a").is_ok() && std::fs::rename("a", "b").is_ok()'),
    "std::fs::remove_dir": ok_in_rust(
        'std::fs::create_dir("a").is_ok() && std::fs::remove_dir("a").is_ok()'),
}
