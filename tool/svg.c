/* Pictures as SVG. */
#include "svg.h"

#include <stdarg.h>
#include <string.h>

static void put_escaped(FILE *out, const char *text) {
    static const char special[] = "&<>\"'", *const entities[] = {"&amp;", "&lt;", "&gt;", "&quot;", "&#39;"};
    for (; *text != 0; text++) {
        const char *found = strchr(special, *text);
        if (found != NULL) fputs(entities[found - special], out);
        else fputc(*text >= ' ' && *text <= '~' ? *text : '?', out);
    }
}

void svg_start(FILE *out, int width, int height, const char *title) {
    fprintf(out, "<svg xmlns=\"http://www.w3.org/2000/svg\" width=\"%d\" height=\"%d\" viewBox=\"0 0 %d %d\"\n", width, height, width, height);
    fprintf(out, " font-family=\"sans-serif\" font-size=\"12\">\n<title>");
    put_escaped(out, title);
    fprintf(out, "</title>\n<defs><marker id=\"tip\" viewBox=\"0 0 10 10\" refX=\"9\" refY=\"5\" markerWidth=\"8\" markerHeight=\"8\" orient=\"auto\">\n");
    fprintf(out, "<path d=\"M0 0L10 5L0 10z\" fill=\"" INK "\"/></marker></defs>\n<rect width=\"%d\" height=\"%d\" fill=\"#ffffff\"/>\n", width, height);
}

void svg_end(FILE *out) { fprintf(out, "</svg>\n"); }

void svg_text(FILE *out, int x, int y, look l, const char *format, ...) {
    char text[400];
    va_list arguments;
    va_start(arguments, format);
    vsnprintf(text, sizeof text, format, arguments);
    va_end(arguments);
    fprintf(out, "<text x=\"%d\" y=\"%d\" text-anchor=\"%s\" fill=\"%s\"", x, y, l.anchor, l.fill);
    if (l.edge) fprintf(out, " stroke=\"#ffffff\" stroke-width=\"5\" stroke-linejoin=\"round\" paint-order=\"stroke\"");
    if (l.size > 0) fprintf(out, " font-size=\"%d\"", l.size);
    fprintf(out, l.bold ? " font-weight=\"bold\">" : ">");
    put_escaped(out, text);
    fprintf(out, "</text>\n");
}

void svg_box(FILE *out, int x, int y, int width, int height, const char *fill) {
    fprintf(out, "<rect x=\"%d\" y=\"%d\" width=\"%d\" height=\"%d\" rx=\"3\" fill=\"%s\" stroke=\"" INK "\"/>\n", x, y, width, height, fill);
}

void svg_line(FILE *out, int x1, int y1, int x2, int y2, const char *stroke, int width, int dashed) {
    fprintf(out, "<line x1=\"%d\" y1=\"%d\" x2=\"%d\" y2=\"%d\" stroke=\"%s\" stroke-width=\"%d\"%s/>\n", x1, y1, x2, y2, stroke, width,
            dashed ? " stroke-dasharray=\"6 4\"" : "");
}

void svg_arrow(FILE *out, int x1, int y1, int x2, int y2) {
    fprintf(out, "<path d=\"M%d %dL%d %d\" fill=\"none\" stroke=\"" INK "\" marker-end=\"url(#tip)\"/>\n", x1, y1, x2, y2);
}
