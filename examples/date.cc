// Codes texts under a type in DER and prints the octets, or why there are none. An empty view may hold a null pointer.
#include <anafzir.h>

#include <cstdio>
#include <string_view>
#include <vector>

static std::vector<uint8_t> encode(std::string_view type, std::string_view text)
{
    auto octets = [](std::string_view view) { return reinterpret_cast<const uint8_t *>(view.data()); };
    std::vector<uint8_t> room(ANAFZIR_ROOM);
    auto o = anafzir_der_encode(octets(type), type.size(), anafzir_limits{}, octets(text), text.size(), room.data(), room.size());
    if (o.number != ANAFZIR_DONE)
        throw anafzir_message(o.number);
    room.resize(o.length);
    return room;
}

int main()
{
    for (std::string_view text : {std::string_view("2006-06-13"), std::string_view("2006-02-29"), std::string_view()})
        try {
            for (uint8_t octet : encode("DATE", text))
                std::printf("%02X", octet);
            std::printf("\n");
        } catch (const char *why) {
            std::printf("%s\n", why);
        }
}
