/* The head of a page: how it looks, what it is about, and room for a name and a date. */
#include <string.h>

#include "page.h"

/* The labels of a strip have as much of its width as in a drawing. Borders differ in kind, so that no colour is needed. */
static const char style[] =
    "<meta charset=\"utf-8\"/>\n<meta name=\"viewport\" content=\"width=device-width, initial-scale=1\"/>\n<style>\n"
    "@page { size: A4 portrait; margin: 10mm }\n"
    "* { box-sizing: border-box }\n"
    "body { font: 15px/1.4 sans-serif; color: #000; background: #fff; max-width: 1000px; margin: 1em auto; padding: 0 12px }\n"
    "h1 { font-size: 1.5em; margin: 0; overflow-wrap: anywhere }\n"
    "h2 { font-size: 1.1em; margin: 1em 0 .3em; border-bottom: 1px solid #888; break-after: avoid }\n"
    "p, ol { margin: .3em 0; overflow-wrap: anywhere }\n"
    "ol { padding-left: 1.4em }\n"
    ".hand { display: flex; gap: 1em; margin: 1.2em 0 .8em }\n"
    ".hand span { flex: 1; border-bottom: 2px dotted #000 }\n"
    ".box { display: flex; gap: .8em; align-items: center; padding: .5em .8em; margin: .6em 0 }\n"
    ".box svg { flex: none }\n"
    ".box div { min-width: 0 }\n"
    ".passes { border: 4px solid #14602a; background: #eaf5ec }\n"
    ".late { border: 8px double #a3001b; background: #fdecee }\n"
    ".undecided { border: 4px dashed #6b4e00; background: #fdf6e3 }\n"
    ".verdict { font-size: 1.15em }\n"
    ".verdict b { font-size: 1.3em }\n"
    "table { border-collapse: collapse; width: 100% }\n"
    "th, td { text-align: right; padding: .15em .5em; border-bottom: 1px solid #bbb; vertical-align: top }\n"
    "th { font-weight: bold; vertical-align: bottom }\n"
    ".says { text-align: left; overflow-wrap: anywhere; width: 100% }\n"
    "tr, section, .strip { break-inside: avoid }\n"
    "section.list { break-inside: auto }\n"
    "pre { font: 13px/1.35 monospace; margin: .3em 0; white-space: pre-wrap; overflow-wrap: anywhere }\n"
    ".bar { text-align: left }\n"
    ".bar svg { display: block; margin-top: .2em }\n"
    ".hex { font: min(12px, 2.9vw)/1.35 monospace; columns: 54ch }\n"
    ".hex span { display: block; white-space: pre }\n"
    ".long { columns: 11em }\n"
    ".wide { overflow-x: auto }\n"
    ".strip { display: flex; align-items: flex-start; min-width: 760px }\n"
    ".strip svg { height: auto }\n"
    ".side { flex: 190 0 0; min-width: 0; position: sticky; left: 0; background: #fff }\n"
    ".lanes { flex: 830 0 0; min-width: 0 }\n"
    ".legend > span { display: inline-block; margin-right: 1.2em; font-size: .9em }\n"
    ".legend svg { vertical-align: middle }\n"
    "@media (min-width: 900px), print { .pair { display: grid; grid-template-columns: 1fr 1fr; gap: 0 2em; align-items: start } }\n"
    "@media screen and (max-width: 640px) {\n"
    "  thead { display: none }\n"
    "  tbody tr { display: flex; flex-wrap: wrap; border-bottom: 1px solid #bbb; padding: .3em 0 }\n"
    "  td { border: 0; padding: .1em 1em .1em 0 }\n"
    "  .says { flex: 1 0 calc(100% - 3em); padding-right: 0 }\n"
    "  .bar { flex: 1 0 100% }\n"
    "  .bar svg { width: 100% }\n"
    "  td[data-is]::before { content: attr(data-is) \" \"; color: #444 }\n"
    "}\n"
    "@media print {\n"
    "  body { font-size: 10.5px; line-height: 1.25; max-width: none; margin: 0; padding: 0 }\n"
    "  pre, .hex { font-size: 9.5px }\n"
    "  h2 { margin-top: .7em }\n"
    "  .hand { margin: 1.5em 0 .8em }\n"
    "  .box { padding: .1em .8em }\n"
    "  .box svg { width: 36px }\n"
    "  .bar svg { height: 10px }\n"
    "  th, td { padding: .1em .35em }\n"
    "  .wide { overflow: visible }\n"
    "  .strip { min-width: 0 }\n"
    "  .box, rect, path { print-color-adjust: exact; -webkit-print-color-adjust: exact }\n"
    "}\n"
    "</style>\n";

static const char *base_of(const char *file)
{
    const char *slash = strrchr(file, '/');
    return shown_name(slash == NULL ? file : slash + 1);
}

static void put_what_if(const struct table *table)
{
    const struct around parts = {", with ", "", put_text};
    struct what_if what_if;
    find_changes(table, &what_if);
    if (what_if.count > 0) {
        printf("<p class=\"what-if\">What if: the table of the file");
        put_changes(&parts, table);
        printf(".</p>\n");
    }
}

void put_head(const struct page *page)
{
    const struct table *table = page->table;
    printf("<!DOCTYPE html>\n<html xmlns=\"http://www.w3.org/1999/xhtml\" lang=\"en\">\n<head>\n%s<title>", style);
    put_text(base_of(page->file));
    printf("</title>\n</head>\n<body>\n<h1>");
    put_text(base_of(page->file));
    printf("</h1>\n");
    put_what_if(table);
    printf("<p class=\"checksum\">The table file has %lu bytes; CRC-32 (as zip and Ethernet use it): <b>%08" PRIx32 "</b></p>\n",
           (unsigned long)table->len, checksum_of(table->file, table->len));
    printf("<p class=\"hand\">Name <span></span> Date <span></span></p>\n");
}
