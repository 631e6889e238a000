// Builds the script on standard input with the AngelScript library, calls its function m, and prints how that ended:
// "ok V", "exception TEXT" or "refused", after what the script asked the host. What the library says of a build goes to
// standard error. The masks are those of docs/COMING_FROM.md.
#define AS_USE_NAMESPACE
#include <angelscript.h>
#include <angelscript/scriptarray.h>
#include <angelscript/scriptstdstring.h>
#include <cstdio>
#include <initializer_list>
#include <iostream>
#include <iterator>
#include <string>
#include <utility>
using namespace AngelScript;

static asINT64 sum(asINT64 a, asINT64 b) {
    printf("(%lld,%lld) ", (long long)a, (long long)b);
    return a + b;
}
static asINT64 blend(int a, int b) { return (asINT64)a + b; }
static void audit(asINT64) {}
static void print(const std::string &) {}
static asINT64 reg, level;

struct Object {
    int count = 1;
    void add() { ++count; }
    void release() { if (--count == 0) delete this; }
};
static Object *made() { return new Object; }

static void say(const asSMessageInfo *m, void *) {
    fprintf(stderr, "%s %d:%d %s\n", m->type == asMSGTYPE_ERROR ? "error" : "note", m->row, m->col, m->message);
}

static void counts(asIScriptEngine *e, const char *type) {
    e->RegisterObjectBehaviour(type, asBEHAVE_ADDREF, "void f()", asMETHOD(Object, add), asCALL_THISCALL);
    e->RegisterObjectBehaviour(type, asBEHAVE_RELEASE, "void f()", asMETHOD(Object, release), asCALL_THISCALL);
}

static void enumeration(asIScriptEngine *e, const char *type, std::initializer_list<std::pair<const char *, int>> values) {
    e->RegisterEnum(type);
    for (auto value : values) e->RegisterEnumValue(type, value.first, value.second);
}

static asIScriptEngine *registered() {
    asIScriptEngine *e = asCreateScriptEngine();
    e->SetMessageCallback(asFUNCTION(say), 0, asCALL_CDECL);
    printf("default mask %08x; ", (unsigned)e->SetDefaultAccessMask(3));
    RegisterStdString(e);
    RegisterScriptArray(e, true);
    e->RegisterGlobalFunction("void print(const string &in)", asFUNCTION(print), asCALL_CDECL);
    e->RegisterGlobalFunction("int64 sum(int64, int64)", asFUNCTION(sum), asCALL_CDECL);
    e->RegisterGlobalProperty("int64 reg", &reg);
    e->RegisterObjectType("Counter", 0, asOBJ_REF);
    enumeration(e, "Color", {{"RED", 1}, {"GREEN", 3}, {"BLUE", -2}});
    enumeration(e, "Light", {{"DIM", 4}, {"BLUE", 5}});
    e->RegisterGlobalFunction("int64 blend(Color, Color)", asFUNCTION(blend), asCALL_CDECL);
    e->SetDefaultAccessMask(2);
    enumeration(e, "Secret", {{"HIDDEN", 7}, {"GREEN", 8}});
    e->RegisterObjectType("Cell", 0, asOBJ_REF);
    e->RegisterGlobalFunction("void audit(int64)", asFUNCTION(audit), asCALL_CDECL);
    e->RegisterGlobalProperty("int64 level", &level);
    counts(e, "Cell");
    counts(e, "Counter");
    e->RegisterObjectBehaviour("Counter", asBEHAVE_FACTORY, "Counter@ f()", asFUNCTION(made), asCALL_CDECL);
    e->SetDefaultAccessMask(1);
    e->RegisterGlobalFunction("Cell@ pick()", asFUNCTION(made), asCALL_CDECL);
    e->SetDefaultAccessMask(0);
    int zero = e->RegisterGlobalFunction("void zero()", asFUNCTION(made), asCALL_CDECL);
    printf("mask 0 %s; ", zero < 0 ? "refused" : "registered");
    return e;
}

static void print_value(asIScriptFunction *f, asIScriptContext *c) {
    switch (f->GetReturnTypeId()) {
    case asTYPEID_VOID: printf("ok\n"); break;
    case asTYPEID_BOOL: printf("ok %s\n", c->GetReturnByte() ? "true" : "false"); break;
    case asTYPEID_INT32: printf("ok %d\n", (int)c->GetReturnDWord()); break;
    default: printf("ok %lld\n", (long long)c->GetReturnQWord());
    }
}

int main() {
    std::string script((std::istreambuf_iterator<char>(std::cin)), std::istreambuf_iterator<char>());
    asIScriptEngine *e = registered();
    asIScriptModule *m = e->GetModule("a", asGM_ALWAYS_CREATE);
    printf("module mask %08x\n", (unsigned)m->SetAccessMask(1));
    m->AddScriptSection("s", script.c_str(), script.size());
    if (m->Build() < 0) return printf("refused\n"), 0;
    asIScriptFunction *f = m->GetFunctionByDecl("void m()");
    for (asUINT i = 0; !f && i < m->GetFunctionCount(); i++)
        if (m->GetFunctionByIndex(i)->GetName() == std::string("m") && m->GetFunctionByIndex(i)->GetParamCount() == 0) f = m->GetFunctionByIndex(i);
    if (!f) return printf("ok\n"), 0;
    asIScriptContext *c = e->CreateContext();
    c->Prepare(f);
    if (c->Execute() == asEXECUTION_FINISHED) print_value(f, c);
    else printf("exception %s\n", c->GetExceptionString());
}
