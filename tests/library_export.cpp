// Tries gwb_export.hpp: each form of file, by the companions in this repository, and what is said where there is none. The last line counts.
#include "checks.h"
#include "gwb_export.hpp"
#include <cstdlib>
#include <filesystem>
#include <fstream>
#include <iostream>
#include <sstream>

using namespace gwb_session;

static std::string text_of(const std::string &path)
{
    std::ifstream file(path, std::ios::binary);
    std::ostringstream text;
    text << file.rdbuf();
    return text.str();
}

int main()
{
    char folder[] = "/tmp/gwb-export-XXXXXX";
    if (mkdtemp(folder) == nullptr)
        return 1;
    const std::string base = std::string(folder) + "/part.";
    setenv("GWB_COMPANIONS", "companions", 1);
    Workbench bench;
    const auto fault = [&](const std::string &path) { return try_export(bench, path).fault; };
    check(fault(base + "step") == ExportFault::refused && text_of(base + "step").empty(), "nothing is held");
    bench.block({0, 0, 0}, {4, 4, 4});
    const std::pair<const char *, const char *> begins[] = {{"step", "ISO-10303-21;"}, {"STP", "ISO-10303-21;"}, {"p21", "ISO-10303-21;"}, {"3mf", "PK"},
                                                            {"stl", "solid"},          {"obj", "v "},            {"off", "OFF"},           {"glb", "glTF"}};
    for (const auto &[ending, first] : begins) {
        check(export_to(bench, base + ending).empty(), std::string("nothing to say: ") + ending);
        check(text_of(base + ending).rfind(first, 0) == 0, std::string("a file of the form ") + ending);
    }
    std::ofstream(base + "script") << "# solid 1 name \"Lid\"\n";
    check(export_to(bench, base + "step", base + "script").empty() && text_of(base + "step").find("'Lid'") != std::string::npos, "names are taken along");
    check(export_to(bench, base + "stl", "", Step{1, 1000}).empty() && text_of(base + "stl").find("0.004") != std::string::npos, "a step in STL");
    check(export_to(bench, base + "off", "", Step{5, 2}).empty() && text_of(base + "off").find("\n10 10 10\n") != std::string::npos, "a step in OFF");
    check(export_to(bench, base + "obj").empty() && text_of(base + "obj").find("v 4 4 4\n") != std::string::npos, "without a step a coordinate is 1 mm");
    check(try_export(bench, base + "stl", "", Step{1, 0}).fault == ExportFault::refused, "no step");
    bench.block({4, 0, 0}, {4, 4, 4});
    check(export_to(bench, base + "stl").find("solids 1 and 2 touch") != std::string::npos, "a warning is told");
    const std::string before = text_of(base + "stl");
    check(fault(base + "xyz") == ExportFault::no_form && fault("part") == ExportFault::no_form, "no such form");
    check(try_export(bench, "part").said.rfind("part: the endings are step stp ", 0) == 0, "the endings are told");
    check(fault(std::string(folder) + "/none/part.stl") == ExportFault::no_file, "no such folder");
    setenv("GWB_COMPANIONS", folder, 1);
    check(fault(base + "stl") == ExportFault::no_program && text_of(base + "stl") == before, "no such program, and the file is as it was");
    try {
        (void)export_to(bench, base + "stl");
        check(false, "what isn't exported is thrown");
    } catch (const NotExported &why) {
        check(why.fault() == ExportFault::no_program && std::string(why.what()).rfind("NoProgram: ", 0) == 0, "why");
    }
    check(bench.depth() == 2, "nothing has changed");
    std::filesystem::remove_all(folder);
    return counted();
}
