/* Draws a mesh as SVG. Each triangle is asked of the library at a point inside it: the plane there gives its shade and tint, and the kind
 * of the height whether it is drawn as surveyed or as filled. Paths are in cells, turned north up by one transform. The strip's path is
 * read from the strip itself, by the usual rule. */
#include "picture.h"

enum {
    BANDS = 14, SHADES = 15, TONES = 2 * BANDS * SHADES, /* so few colours that triangles share a path */
    WIDTH = 1200, HEIGHT = 840, MARGIN = 36, MAP_SIDE = HEIGHT - 2 * MARGIN,
    PANEL = MARGIN + MAP_SIDE + MARGIN, PANEL_END = WIDTH - MARGIN, SYMBOL = PANEL + 35, ENTRY = PANEL + 84, ROW = 27
};

/* How steep the ground looks: the slope, as a part of the survey's whole range over the whole grid, that is lit half. */
static const double half_lit = 4.5;

typedef struct { double red, green, blue; } colour;

/* Of ground that is surveyed, then of ground that is filled. */
static const colour shadow[] = {{24, 38, 48}, {84, 14, 52}}, sunlight[] = {{255, 250, 228}, {255, 240, 226}};
static const colour surveyed[] = {{104, 143, 104}, {150, 176, 122}, {205, 203, 150}, {203, 170, 117}, {160, 118, 82}};
static const colour filled[] = {{246, 170, 140}, {243, 146, 124}, {238, 122, 110}, {226, 98, 100}, {205, 76, 92}};
enum { STOPS = sizeof surveyed / sizeof *surveyed };

static const char dot_colour[] = "#8e0f4d", hole_colour[] = "#6d1238", ink[] = "#26332b", paper[] = "#fbf9f3";
static const char small[] = " font-size=\"15\" fill=\"#5d6a60\"";

typedef struct { char text[8]; } hex;

static hex hex_of(colour c)
{
    hex code;
    snprintf(code.text, sizeof code.text, "#%02x%02x%02x", (uint8_t)c.red, (uint8_t)c.green, (uint8_t)c.blue);
    return code;
}

static colour mix(colour from, colour to, double part)
{
    return (colour){from.red + part * (to.red - from.red), from.green + part * (to.green - from.green),
                    from.blue + part * (to.blue - from.blue)};
}

/* The tint of a height, given as a part of the survey's range. */
static colour tint(const colour ramp[STOPS], double part)
{
    int below = (int)(part * (STOPS - 1));
    if (below > STOPS - 2)
        below = STOPS - 2;
    return mix(ramp[below], ramp[below + 1], part * (STOPS - 1) - below);
}

static colour tone_colour(int tone)
{
    int shade = tone % SHADES, band = tone / SHADES % BANDS, kind = tone / SHADES / BANDS;
    double light = 2.0 * shade / (SHADES - 1) - 1;
    colour flat = tint(kind ? filled : surveyed, (double)band / (BANDS - 1));
    return light < 0 ? mix(flat, shadow[kind], -0.75 * light) : mix(flat, sunlight[kind], 0.6 * light);
}

typedef struct { int low, high; } range;

static range heights_range(const ground *g)
{
    range all = {g->heights[0], g->heights[0]};
    for (size_t place = 0; place < g->samples; place++) {
        if (g->heights[place] < all.low)
            all.low = g->heights[place];
        if (g->heights[place] > all.high)
            all.high = g->heights[place];
    }
    return all;
}

/* Light comes from the north-west: ground that rises to the east or falls to the north faces it. */
static int tone_of(const ground *g, range all, uint32_t triangle)
{
    point at = inside(g, triangle);
    mosskirtle_plane_answer plane = plane_at(g, at);
    double span = all.high > all.low ? all.high - all.low : 1;
    double lean = ((double)plane.east - plane.north) * cells(g) / span / half_lit;
    double light = lean / (1 + (lean < 0 ? -lean : lean));
    int shade = (int)((light + 1) / 2 * (SHADES - 1) + 0.5);
    int band = (int)(((double)plane.height - all.low) / span * (BANDS - 1) + 0.5);
    int kind = height_at(g, at).kind == MOSSKIRTLE_FILLED;
    return (kind * BANDS + band) * SHADES + shade;
}

static void draw_triangle(const ground *g, uint32_t triangle, FILE *out)
{
    const uint16_t *places = g->places + 3 * triangle;
    point p = corner(g, places[0]), q = corner(g, places[1]), r = corner(g, places[2]);
    fprintf(out, "M%u %ul%d %d %d %dz", p.x, p.y, (int)(q.x - p.x), (int)(q.y - p.y), (int)(r.x - q.x), (int)(r.y - q.y));
}

/* One path a tone, its outline in its own colour so that no seam shows between neighbours. */
static void draw_triangles(const ground *g, double pixel, FILE *out)
{
    static int16_t tone[MOST_TRIANGLES];
    range all = heights_range(g);
    for (uint32_t triangle = 0; triangle < g->mesh.triangles; triangle++)
        tone[triangle] = (int16_t)tone_of(g, all, triangle);
    fprintf(out, "<g stroke-width=\"%.2g\" stroke-linejoin=\"round\">\n", 0.6 * pixel);
    for (int now = 0; now < TONES; now++) {
        int open = 0;
        for (uint32_t triangle = 0; triangle < g->mesh.triangles; triangle++) {
            if (tone[triangle] != now)
                continue;
            hex code = hex_of(tone_colour(now));
            if (!open++)
                fprintf(out, "<path fill=\"%s\" stroke=\"%s\" d=\"", code.text, code.text);
            draw_triangle(g, triangle, out);
        }
        if (open)
            fputs("\"/>\n", out);
    }
    fputs("</g>\n", out);
}

static void draw_side(point from, point to, FILE *out)
{
    int east = (int)(to.x - from.x), north = (int)(to.y - from.y);
    fprintf(out, "M%u %u", from.x, from.y);
    if (north == 0)
        fprintf(out, "h%d", east);
    else if (east == 0)
        fprintf(out, "v%d", north);
    else
        fprintf(out, "l%d %d", east, north);
}

/* All triangles turn one way, so neighbours run along their side in opposite directions: it is drawn where its places rise. */
static void draw_sides(const ground *g, double pixel, FILE *out)
{
    fprintf(out, "<path fill=\"none\" stroke=\"%s\" stroke-opacity=\".42\" stroke-width=\"%.2g\" d=\"", ink, 0.55 * pixel);
    for (uint32_t i = 0; i < 3 * g->mesh.triangles; i++) {
        uint16_t from = g->places[i], to = g->places[i % 3 == 2 ? i - 2 : i + 1];
        if (from < to)
            draw_side(corner(g, from), corner(g, to), out);
    }
    fputs("\"/>\n", out);
}

static int void_at(const ground *g, int x, int y)
{
    int side = (int)cells(g) + 1;
    return x >= 0 && y >= 0 && x < side && y < side && g->survey[y * side + x] == MOSSKIRTLE_VOID;
}

/* The border of the void samples, each taken as the square halfway to its neighbours. */
static void draw_holes(const ground *g, double pixel, FILE *out)
{
    int side = (int)cells(g) + 1;
    fprintf(out, "<path fill=\"none\" stroke=\"%s\" stroke-width=\"%.2g\" stroke-linecap=\"square\" d=\"", hole_colour, 1.3 * pixel);
    for (int y = 0; y < side; y++)
        for (int x = 0; x < side; x++) {
            if (!void_at(g, x, y))
                continue;
            if (!void_at(g, x, y - 1))
                fprintf(out, "M%g %gh1", x - 0.5, y - 0.5);
            if (!void_at(g, x, y + 1))
                fprintf(out, "M%g %gh1", x - 0.5, y + 0.5);
            if (!void_at(g, x - 1, y))
                fprintf(out, "M%g %gv1", x - 0.5, y - 0.5);
            if (!void_at(g, x + 1, y))
                fprintf(out, "M%g %gv1", x + 0.5, y - 0.5);
        }
    fputs("\"/>\n", out);
}

/* Lines of no length: their round ends are dots. */
static void draw_dots(const ground *g, const char *colour_name, double size, FILE *out)
{
    fprintf(out, "<path stroke=\"%s\" stroke-width=\"%.2g\" stroke-linecap=\"round\" d=\"", colour_name, size);
    for (size_t place = 0; place < g->samples; place++)
        if (g->marks[place] == FILLED_CORNER) {
            point at = corner(g, (uint16_t)place);
            fprintf(out, "M%u %uh0", at.x, at.y);
        }
    fputs("\"/>\n", out);
}

/* The middle of the triangle that the strip's places from there on give, in thirds of a cell; none where one of the three is repeated. */
static bool strip_middle(const ground *g, uint32_t from, point *middle)
{
    const uint16_t *row = g->strip_places + from;
    point a = corner(g, row[0]), b = corner(g, row[1]), c = corner(g, row[2]);
    *middle = (point){a.x + b.x + c.x, a.y + b.y + c.y};
    return row[0] != row[1] && row[1] != row[2] && row[0] != row[2];
}

/* A curve in sixths of a cell that heads for each middle in turn, and runs through the points halfway between them. */
static void draw_strip_path(const ground *g, const char *colour_name, double size, FILE *out)
{
    point before, now, next;
    strip_middle(g, 0, &now);
    before = now;
    fprintf(out, "<path fill=\"none\" stroke=\"%s\" stroke-width=\"%.2g\" stroke-linecap=\"round\" d=\"M%u %uq0 0", colour_name, size,
            2 * now.x, 2 * now.y);
    for (uint32_t from = 1; from + 2 < g->strip.places; from++) {
        if (!strip_middle(g, from, &next))
            continue;
        fprintf(out, " %d %dt", (int)(next.x - before.x), (int)(next.y - before.y));
        before = now;
        now = next;
    }
    fprintf(out, " %d %d\"/>\n", (int)(now.x - before.x), (int)(now.y - before.y));
}

/* A ring where the strip starts, a dot where it ends. */
static void draw_strip_mark(double x, double y, double pixel, bool start, FILE *out)
{
    fprintf(out, "<circle cx=\"%g\" cy=\"%g\" r=\"%.3g\" fill=\"%s\" stroke=\"%s\" stroke-width=\"%.2g\"/>\n", x, y,
            (start ? 4.5 : 6) * pixel, start ? paper : ink, start ? ink : paper, 2 * pixel);
}

static void draw_strip(const ground *g, double pixel, FILE *out)
{
    point first, last;
    double sixth = 6 * pixel;
    strip_middle(g, 0, &first);
    strip_middle(g, g->strip.places - 3, &last);
    fputs("<g transform=\"scale(.16666667)\">\n", out);
    draw_strip_path(g, paper, 3 * sixth, out);
    draw_strip_path(g, ink, 1.4 * sixth, out);
    draw_strip_mark(2 * first.x, 2 * first.y, sixth, true, out);
    draw_strip_mark(2 * last.x, 2 * last.y, sixth, false, out);
    fputs("</g>\n", out);
}

static void draw_map(const ground *g, bool with_strip, FILE *out)
{
    double scale = (double)MAP_SIDE / cells(g), pixel = 1 / scale;
    fprintf(out, "<g transform=\"translate(%d %d) scale(%g -%g)\">\n", MARGIN, MARGIN + MAP_SIDE, scale, scale);
    draw_triangles(g, pixel, out);
    draw_sides(g, pixel, out);
    draw_holes(g, pixel, out);
    draw_dots(g, "#fff", 7 * pixel, out);
    draw_dots(g, dot_colour, 4.8 * pixel, out);
    if (with_strip)
        draw_strip(g, pixel, out);
    fputs("</g>\n", out);
    fprintf(out, "<rect x=\"%d\" y=\"%d\" width=\"%d\" height=\"%d\" fill=\"none\" stroke=\"%s\" stroke-width=\"1.5\"/>\n",
            MARGIN, MARGIN, MAP_SIDE, MAP_SIDE, ink);
}

static void write_text(int x, int y, const char *look, const char *text, FILE *out)
{
    fprintf(out, "<text x=\"%d\" y=\"%d\"%s>%s</text>\n", x, y, look, text);
}

static void write_rule(int y, FILE *out)
{
    fprintf(out, "<path stroke=\"%s\" stroke-opacity=\".25\" d=\"M%d %dH%d\"/>\n", ink, PANEL, y, PANEL_END);
}

static void write_row(int y, const char *what, const char *value, FILE *out)
{
    write_text(PANEL, y, "", what, out);
    write_text(PANEL_END, y, " text-anchor=\"end\" font-weight=\"700\"", value, out);
}

static void write_counts(const ground *g, int y, FILE *out)
{
    char text[8], line[64];
    uint32_t side = cells(g) + 1, most = 2 * cells(g) * cells(g);
    snprintf(line, sizeof line, "%u × %u", side, side);
    write_row(y, "Samples", line, out);
    write_row(y += ROW, "Tolerance", counted(g->tolerance, text), out);
    write_row(y += ROW, "Kept for their own error", counted(g->selection.own, text), out);
    write_row(y += ROW, "Kept for dependence", counted(g->selection.dependent, text), out);
    write_row(y += ROW, "Triangles", counted(g->mesh.triangles, text), out);
    char part[16];
    snprintf(line, sizeof line, "of the full grid's %s", counted(most, text));
    snprintf(part, sizeof part, "%.1f %%", 100.0 * g->mesh.triangles / most);
    write_row(y += ROW, line, part, out);
}

/* A row of triangles in tones of surveyed or of filled ground. */
static void draw_swatch(int y, int kind, FILE *out)
{
    enum { SHOWN = 4, HALF = 14, TALL = 24 };
    for (int i = 0; i < SHOWN; i++) {
        int band = (BANDS - 1) * i / (SHOWN - 1), shade = (SHADES - 1) * (i % 2 ? 5 : 3) / 8;
        hex code = hex_of(tone_colour((kind * BANDS + band) * SHADES + shade));
        fprintf(out, "<path fill=\"%s\" stroke=\"%s\" stroke-width=\".6\" d=\"M%d %dh%dl-%d %dz\"/>\n", code.text, ink, PANEL + HALF * i,
                i % 2 ? y + TALL / 2 : y - TALL / 2, 2 * HALF, HALF, i % 2 ? -TALL : TALL);
    }
}

static void write_entry(int y, const char *what, const char *note, FILE *out)
{
    write_text(ENTRY, y - 4, "", what, out);
    write_text(ENTRY, y + 14, small, note, out);
}

static void write_legend(const ground *g, int y, FILE *out)
{
    char text[8], line[64];
    range all = heights_range(g);
    draw_swatch(y, 0, out);
    snprintf(line, sizeof line, "heights %d to %d", all.low, all.high);
    write_entry(y, "Surveyed ground", line, out);
    draw_swatch(y += 56, 1, out);
    snprintf(line, sizeof line, "Filled ground: %s", counted(g->filled_triangles, text));
    write_entry(y, line, "triangles with a filled corner", out);
    y += 48;
    fprintf(out, "<circle cx=\"%d\" cy=\"%d\" r=\"5\" fill=\"%s\"/>\n", SYMBOL, y, dot_colour);
    snprintf(line, sizeof line, "Filled corners: %s", counted(g->filled_corners, text));
    write_text(ENTRY, y + 6, "", line, out);
    y += 38;
    fprintf(out, "<path fill=\"none\" stroke=\"%s\" stroke-width=\"2\" d=\"M%d %dh8v-8h30v8h8v12h-46z\"/>\n", hole_colour, SYMBOL - 23,
            y - 2);
    snprintf(line, sizeof line, "Void samples: %s", counted(g->selection.voids, text));
    write_text(ENTRY, y + 6, "", line, out);
}

static void write_strip_entry(const ground *g, int y, FILE *out)
{
    char text[8], line[64];
    fprintf(out, "<path fill=\"none\" stroke=\"%s\" stroke-width=\"1.4\" d=\"M%d %dq12-26 24 0t24 0\"/>\n", ink, SYMBOL - 24, y);
    draw_strip_mark(SYMBOL - 24, y, 1, true, out);
    draw_strip_mark(SYMBOL + 24, y, 1, false, out);
    snprintf(line, sizeof line, "Strip: %s places", counted(g->strip.places, text));
    write_text(ENTRY, y - 4, "", line, out);
    snprintf(line, sizeof line, "%.2f a triangle, ring to dot", (double)g->strip.places / g->mesh.triangles);
    write_text(ENTRY, y + 14, small, line, out);
}

static void draw_compass(int y, FILE *out)
{
    fprintf(out, "<path d=\"M%d %dl9 34-9-7-9 7z\"/>\n", SYMBOL, y - 14);
    write_text(SYMBOL, y - 20, " text-anchor=\"middle\" font-weight=\"700\"", "N", out);
    write_entry(y, "North is up", "light from the north-west", out);
}

/* A file's name may hold any byte: what would not be plain in XML becomes a question mark, and what would not fit is left out. */
static void write_source(const ground *g, FILE *out)
{
    int lines = 0;
    while (g->source[lines] != NULL)
        lines++;
    for (int i = 0; i < lines; i++) {
        char line[44] = "";
        for (size_t at = 0; at + 1 < sizeof line && g->source[i][at] != '\0'; at++) {
            char c = g->source[i][at];
            line[at] = c < ' ' || c > '~' || c == '<' || c == '&' ? '?' : c;
        }
        write_text(PANEL, MARGIN + MAP_SIDE - 20 * (lines - 1 - i), small, line, out);
    }
}

void draw(const ground *g, bool with_strip, FILE *out)
{
    fprintf(out, "<svg xmlns=\"http://www.w3.org/2000/svg\" viewBox=\"0 0 %d %d\" fill=\"%s\" "
                 "font-family=\"Helvetica, Arial, sans-serif\" font-size=\"18\">\n", WIDTH, HEIGHT, ink);
    fputs("<title>A height mesh by Mosskirtle, seen from above</title>\n", out);
    fprintf(out, "<rect width=\"%d\" height=\"%d\" rx=\"14\" fill=\"%s\"/>\n", WIDTH, HEIGHT, paper);
    draw_map(g, with_strip, out);
    write_text(PANEL, 72, " font-size=\"44\" font-weight=\"700\"", "Mosskirtle", out);
    write_text(PANEL, 106, "", "A proved height mesh,", out);
    write_text(PANEL, 130, "", "where filled ground is called filled", out);
    write_rule(158, out);
    write_counts(g, 192, out);
    write_rule(350, out);
    write_legend(g, 396, out);
    int y = 584;
    if (with_strip) {
        write_strip_entry(g, y, out);
        y += 48;
    }
    write_rule(y, out);
    draw_compass(y + 62, out);
    write_source(g, out);
    fputs("</svg>\n", out);
}
