/* Pictures as SVG. Places are in pixels from the top left. */
#ifndef TOOL_SVG_H
#define TOOL_SVG_H

#include <stdio.h>

#define INK "#222222"
#define GREY "#777777"
#define FAINT "#d8d8d8"
#define RED "#b3261e"
#define GREEN "#1b7f3b"

/* How a text looks: where it stands from its place (start, middle, end), its colour; with an edge it has a white one, for where lines pass behind it. */
typedef struct { const char *anchor, *fill; int edge, size, bold; } look;

void svg_start(FILE *out, int width, int height, const char *title);
void svg_end(FILE *out);

/* A text of the form that printf takes, escaped; bytes that are no printable ASCII are question marks. */
void svg_text(FILE *out, int x, int y, look l, const char *format, ...) __attribute__((format(printf, 5, 6)));
void svg_box(FILE *out, int x, int y, int width, int height, const char *fill);
void svg_line(FILE *out, int x1, int y1, int x2, int y2, const char *stroke, int width, int dashed);
void svg_arrow(FILE *out, int x1, int y1, int x2, int y2);

#endif
