/* trace URL=MAP .. <LOG: as trace.c, over the owners of smap.hpp.
 *
 *     c++ -o trace trace.cpp -lsmap */
#include "smap.hpp"

#include <fstream>
#include <iostream>
#include <iterator>

static std::string read_all(std::istream &in)
{
    return std::string(std::istreambuf_iterator<char>(in), std::istreambuf_iterator<char>());
}

/* Adds the script of `URL=MAP`. The file's name begins after the last `=`. */
static bool add_script(smap::Scripts &scripts, const std::string &word)
{
    std::string::size_type equals = word.rfind('=');
    std::string url = word.substr(0, equals);
    std::ifstream file(equals == word.npos ? std::string() : word.substr(equals + 1), std::ios::binary);
    smap::Map map; /* closed at the end of this function: the scripts share the map */
    smap_fault fault;
    uint32_t code = smap::open(map, read_all(file), url + ".map", &fault);
    if (code == SMAP_OK) code = smap::add_script(scripts, url, map);
    if (code != SMAP_OK)
        std::cerr << "trace: " << word << ": " << (code == SMAP_REFUSED ? fault.text : smap::code_name(code))
                  << '\n';
    return code == SMAP_OK;
}

int main(int argc, char **argv)
{
    smap::Scripts scripts;
    smap::Bytes out;
    smap_trace_counts counts;
    if (argc < 2) return std::cerr << "usage: trace URL=MAP .. <LOG\n", 2;
    for (int i = 1; i < argc; i++)
        if (!add_script(scripts, argv[i])) return 1;
    uint32_t code = smap::translate(scripts, read_all(std::cin), false, out, &counts);
    if (code != SMAP_OK) return std::cerr << "trace: " << smap::code_name(code) << '\n', 4;
    std::cout << smap::text(out);
    std::cerr << counts.lines << " lines, " << counts.translated << " translated\n";
    return 0;
}
