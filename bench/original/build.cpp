// Builds a module in the original engine once.
//
//     build FOLDER MODULE
//
// FOLDER has the sections as 0.as, 1.as and so on, and in `profile` what the host registers: lines `function 0 N DECLARATION`. They
// are added to a module `m`, and an empty section to a module `e`; then MODULE is built, and the engine is given up. So the time of
// the process with `m`, less that with `e`, is what the build takes. Prints what asrun prints of such a build: `ok` or
// `refused BuildErrors`. Ends with status 1, and other words, where that can't be told.

#include <angelscript.h>

#include <cstdio>
#include <exception>
#include <filesystem>
#include <fstream>
#include <string>
#include <vector>

#include "shared.h"

namespace {

std::vector<std::string> sections_in(const std::string &folder) {
    std::vector<std::string> sections;
    while (true) {
        const std::string path = folder + "/" + std::to_string(sections.size()) + ".as";
        if (!std::filesystem::exists(path)) return sections;
        sections.push_back(text_of(path));
    }
}

/// Messages are made and not shown.
void take_message(const asSMessageInfo *, void *) {}

void take_call(asIScriptGeneric *) {}

void register_functions(asIScriptEngine *engine, const std::string &path) {
    std::ifstream profile(path);
    for (std::string line; std::getline(profile, line);) {
        if (line.rfind("function ", 0) != 0) continue;
        const std::size_t at = line.find(' ', line.find(' ', line.find(' ') + 1) + 1);
        const std::string declaration = line.substr(at + 1);
        require(engine->RegisterGlobalFunction(declaration.c_str(), asFUNCTION(take_call), asCALL_GENERIC) >= 0,
                "refused: " + declaration);
    }
}

void add_module(asIScriptEngine *engine, const char *module_name, const std::vector<std::string> &sections) {
    asIScriptModule *module = engine->GetModule(module_name, asGM_ALWAYS_CREATE);
    for (std::size_t i = 0; i < sections.size(); i++) {
        const std::string name = std::to_string(i);
        require(module->AddScriptSection(name.c_str(), sections[i].data(), sections[i].size()) >= 0, "a section is refused");
    }
}

bool is_built(asIScriptEngine *engine, const char *module_name) {
    asIScriptModule *module = engine->GetModule(module_name, asGM_ONLY_IF_EXISTS);
    require(module != nullptr, "there is no such module");
    return module->Build() >= 0;
}

}  // namespace

int main(int count, char **words) {
    try {
        require(count == 3, "build FOLDER MODULE");
        const std::string folder = words[1];
        asIScriptEngine *engine = asCreateScriptEngine();
        require(engine != nullptr, "there is no engine");
        engine->SetMessageCallback(asFUNCTION(take_message), nullptr, asCALL_CDECL);
        register_functions(engine, folder + "/profile");
        add_module(engine, "m", sections_in(folder));
        add_module(engine, "e", {""});
        std::printf("%s\n", is_built(engine, words[2]) ? "ok" : "refused BuildErrors");
        engine->ShutDownAndRelease();
        return 0;
    } catch (const std::exception &error) {
        std::fprintf(stderr, "build: %s\n", error.what());
        return 1;
    }
}
