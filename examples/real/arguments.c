// A main that gives a program its arguments, since the machine passes none: the program's own is built with -Dmain=main_of_program.
int main_of_program(int count, char **words, char **environment);

int main(int count, char **words, char **environment) {
    static char *given[] = {"program", ARGUMENTS, 0};
    (void)count, (void)words;
    return main_of_program(sizeof given / sizeof *given - 1, given, environment);
}
