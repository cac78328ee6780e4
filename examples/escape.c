/* The character that a text in quotes begins with, with escapes as in C: `\n`, `\t`, `\0`, and `\xNN` in decimal digits. 1000
   is the end of the text, and what is no character. */
typedef unsigned char u8;
typedef unsigned long long u64;

u64 character(const u8 *text)
{
    if (text[0] != '\\')
        return text[0] == '"' ? 1000 : text[0];
    switch (text[1]) {
    case 'n':
        return 10;
    case 't':
        return 9;
    case 'x':
        if (text[2] < '0' || text[2] > '9')
            return 1000;
        if (text[3] < '0' || text[3] > '9')
            return 1000;
        return (text[2] - '0') * 16 + text[3] - '0';
    case '0':
        if (text[2])
            return 1000;
        return 0;
    case '"':
    case '\\':
        return text[1];
    }
    return 1000;
}
