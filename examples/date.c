#include <anafzir.h>
#include <stdio.h>

int main(void)
{
    const uint8_t type[] = "DATE", text[] = "2006-06-13";
    const struct anafzir_limits none = {0};
    uint8_t room[ANAFZIR_ROOM];
    struct anafzir_outcome o = anafzir_per_encode(type, 4, none, text, 10, room, sizeof room);
    if (o.number != ANAFZIR_DONE)
        return puts(anafzir_message(o.number)), 1;
    for (size_t i = 0; i < o.length; i++)
        printf("%02X", room[i]);
    printf(", %u bits\n", (unsigned)o.bits);
    return 0;
}
