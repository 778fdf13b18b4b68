// The texts of messages as libexpat reads them. Standard input has a message on each line; for each there is a line for every Data, which names
// the command, the card's number and the station before the text (`-` where there is no Meta of that Type), then `end`; or `refused` and why. Of a text, bytes outside 32 to 126 and `\` are put as \xNN.
#include <expat.h>
#include <stdio.h>
#include <stdlib.h>
#include <string.h>

static char message[65536], command[32], number[32], station[32], text[65536];
static size_t numbers, texts;
static int in_item, in_data, in_number;

static void XMLCALL begins(void *user, const char *name, const char **attributes)
{
    (void)user;
    if (!strcmp(name, "Add") || !strcmp(name, "Replace") || !strcmp(name, "Delete"))
        snprintf(command, sizeof command, "%s", name);
    if (!strcmp(name, "Item"))
        in_item = 1, numbers = 0, strcpy(station, "-");
    if (in_item && !strcmp(name, "Meta") && attributes[0] && !strcmp(attributes[0], "Type"))
        sscanf(attributes[1], "text/plain;station=%31s", station);
    // the datastore's addresses have the same names, outside of an Item
    in_number = in_item && strstr(name, "URI") != NULL;
    in_data = !strcmp(name, "Data");
    if (in_data)
        texts = 0;
}

static void XMLCALL bytes(void *user, const char *s, int n)
{
    (void)user;
    // a text may come in several parts, one for each reference
    if (in_data && texts + n <= sizeof text)
        memcpy(text + texts, s, n), texts += n;
    if (in_number && numbers + n < sizeof number)
        memcpy(number + numbers, s, n), numbers += n;
}

static void XMLCALL over(void *user, const char *name)
{
    (void)user;
    if (!strcmp(name, "Data")) {
        printf("%s %.*s %s ", command, (int)numbers, number, station);
        for (size_t i = 0; i < texts; i++) {
            unsigned char b = text[i];
            printf(b < 32 || 126 < b || b == '\\' ? "\\x%02x" : "%c", b);
        }
        putchar('\n');
    }
    if (!strcmp(name, "Item"))
        in_item = 0;
    in_data = in_number = 0;
}

int main(void)
{
    XML_Parser parser = XML_ParserCreate(NULL);
    while (parser && fgets(message, sizeof message, stdin)) {
        in_item = in_data = in_number = 0;
        XML_ParserReset(parser, NULL);
        XML_SetElementHandler(parser, begins, over);
        XML_SetCharacterDataHandler(parser, bytes);
        size_t n = strcspn(message, "\n");
        if (XML_Parse(parser, message, (int)n, 1) == XML_STATUS_OK)
            puts("end");
        else
            printf("refused: %s at byte %ld\n", XML_ErrorString(XML_GetErrorCode(parser)), (long)XML_GetCurrentByteIndex(parser));
    }
    fprintf(stderr, "%s\n", XML_ExpatVersion());
    return parser ? 0 : 1;
}
