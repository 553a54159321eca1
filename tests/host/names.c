/*
 * The names that the header gives: each row of its list of refusals fits its enumerator and is a
 * refusal that calls were answered with; and the version is the same in each of its forms.
 */
#include "tests.h"

#include "calls.h"
#include "report.h"

#include <ctype.h>
#include <stdio.h>
#include <string.h>

#define COUNT(list) (sizeof(list) / sizeof(list)[0])

typedef struct Row {
    PiRefusal refusal;
    const char *enumerator;
    int number;
    const char *name;
    const char *sentence;
} Row;

#define ROW(enumerator, number, name, sentence) {enumerator, #enumerator, number, name, sentence},
static const Row rows[] = {PI_REFUSAL_LIST(ROW)};
#undef ROW

/* The paper's list, and those of the needs, of the page and of the ranges. */
static const int numbers[] = {
    1, 2, 3, 4, 5, 6, 10, 11, 12, 13, 14, 20, 21, 22, 30, 31, 32, 33, 34, 35, 36, 40, 41,
    42, 43, 44,
};

/* Whether the enumerator is the name in capital letters, with underscores for blanks. */
static int is_named_after(const char *enumerator, const char *name)
{
    static const char before[] = "PI_REFUSAL_";
    size_t index;

    if (strncmp(enumerator, before, sizeof before - 1) != 0)
        return 0;
    enumerator += sizeof before - 1;
    for (index = 0; name[index] != 0; index += 1) {
        char letter = name[index] == ' ' ? '_' : (char)toupper((unsigned char)name[index]);

        if (enumerator[index] != letter)
            return 0;
    }
    return enumerator[index] == 0 && index != 0;
}

static void test_list(void)
{
    size_t index;

    test_begin("list of refusals");
    if (COUNT(rows) != COUNT(numbers))
        test_fault("%lu rows", (unsigned long)COUNT(rows));
    for (index = 0; index < COUNT(rows) && index < COUNT(numbers); index += 1) {
        if (rows[index].number != numbers[index] || (int)rows[index].refusal != numbers[index])
            test_fault("row %lu is %d", (unsigned long)index, rows[index].number);
        if (!is_named_after(rows[index].enumerator, rows[index].name))
            test_fault("%s is called %s", rows[index].enumerator, rows[index].name);
        if (rows[index].sentence[0] == 0)
            test_fault("%s says nothing", rows[index].enumerator);
    }
    test_end_with("%lu rows", (unsigned long)COUNT(rows));
}

/* Every row of the list is a refusal that the library gives. */
static void test_all_answered(void)
{
    size_t index;

    test_begin("every refusal of the list is answered");
    for (index = 0; index < COUNT(rows); index += 1) {
        if (times_answered(rows[index].refusal) == 0)
            test_fault("no call was refused with %d", rows[index].number);
    }
    test_end();
}

static void test_version(void)
{
    char text[40];

    test_begin("version");
    snprintf(text, sizeof text, "%d.%d.%d", PI_VERSION_MAJOR, PI_VERSION_MINOR, PI_VERSION_PATCH);
    if (strcmp(text, PI_VERSION) != 0)
        test_fault("%s in numbers, %s in words", text, PI_VERSION);
    if (PI_VERSION_NUMBER / 10000 != PI_VERSION_MAJOR ||
        PI_VERSION_NUMBER / 100 % 100 != PI_VERSION_MINOR ||
        PI_VERSION_NUMBER % 100 != PI_VERSION_PATCH)
        test_fault("%s has number %d", PI_VERSION, PI_VERSION_NUMBER);
    test_end_with("%s", PI_VERSION);
}

void test_names(void)
{
    test_list();
    test_all_answered();
    test_version();
}
