// What the programs of this folder have in common.

#pragma once

#include <fstream>
#include <sstream>
#include <stdexcept>
#include <string>

inline void require(bool holds, const std::string &what) {
    if (!holds) throw std::runtime_error(what);
}

inline std::string text_of(const std::string &path) {
    std::ifstream file(path);
    require(static_cast<bool>(file), "cannot open " + path);
    std::ostringstream text;
    text << file.rdbuf();
    return text.str();
}
