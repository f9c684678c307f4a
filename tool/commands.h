/* The commands of the tool. Each gets the words behind its name and gives its exit code. */
#ifndef TOOL_COMMANDS_H
#define TOOL_COMMANDS_H

int run_command(const char *usage, int argc, char **argv);
int text_command(const char *usage, int argc, char **argv);
int bytes_command(const char *usage, int argc, char **argv);
int image_command(const char *usage, int argc, char **argv);
int show_command(const char *usage, int argc, char **argv);
int recover_command(const char *usage, int argc, char **argv);
int diff_command(const char *usage, int argc, char **argv);
int check_command(const char *usage, int argc, char **argv);
int explain_command(const char *usage, int argc, char **argv);
int try_command(const char *usage, int argc, char **argv);
int timeline_command(const char *usage, int argc, char **argv);

#endif
