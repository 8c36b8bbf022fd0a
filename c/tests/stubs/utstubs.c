/* SPDX-License-Identifier: Apache-2.0 */
/* utstubs.c: stands in for UT Assert's: handlers and forced return codes by the address of a stub. */
#include "utstubs.h"

#include <stdio.h>
#include <stdlib.h>
#include <string.h>

enum { ENTRIES = 64 };

static struct entry {
    UT_EntryKey_t key;
    UT_HandlerFunc_t handler;
    void *object;
    bool has_default;
    int32 value;
    int32 count; /* a deferred code comes at this call from now on; 0 for none */
    int32 deferred;
    uint32 calls;
    int32 result;
} entries[ENTRIES];

static struct entry *entry_of(UT_EntryKey_t key)
{
    int place = 0;

    while (place < ENTRIES && entries[place].key != key && entries[place].key != 0) {
        place += 1;
    }
    if (place == ENTRIES) {
        fprintf(stderr, "utstubs: there is no room for another stub\n");
        abort();
    }
    entries[place].key = key;
    return &entries[place];
}

void UT_ResetState(UT_EntryKey_t FuncKey)
{
    if (FuncKey == 0) {
        memset(entries, 0, sizeof entries);
    } else {
        struct entry *entry = entry_of(FuncKey);

        memset(entry, 0, sizeof *entry);
        entry->key = FuncKey;
    }
}

void UT_SetHandlerFunction(UT_EntryKey_t FuncKey, UT_HandlerFunc_t HandlerFunc, void *UserObj)
{
    entry_of(FuncKey)->handler = HandlerFunc;
    entry_of(FuncKey)->object = UserObj;
}

void UT_SetDefaultReturnValue(UT_EntryKey_t FuncKey, int32 Value)
{
    entry_of(FuncKey)->has_default = true;
    entry_of(FuncKey)->value = Value;
}

void UT_SetDeferredRetcode(UT_EntryKey_t FuncKey, int32 Count, int32 Retcode)
{
    entry_of(FuncKey)->count = Count;
    entry_of(FuncKey)->deferred = Retcode;
}

uint32 UT_GetStubCount(UT_EntryKey_t FuncKey)
{
    return entry_of(FuncKey)->calls;
}

const void *UT_Hook_GetArgPtr(const UT_StubContext_t *Context, const char *Name, size_t ExpectedSize)
{
    uint32 place;

    for (place = 0; place < Context->ArgCount; place++) {
        if (strcmp(Context->Name[place], Name) == 0 && Context->Size[place] == ExpectedSize) {
            return Context->ArgPtr[place];
        }
    }
    fprintf(stderr, "utstubs: a stub has no argument %s of %u bytes\n", Name, (unsigned)ExpectedSize);
    abort();
}

bool UT_Stub_GetInt32StatusCode(const UT_StubContext_t *Context, int32 *Value)
{
    *Value = Context->Forced;
    return Context->IsForced;
}

void UT_Stub_SetReturnValuePtr(UT_EntryKey_t FuncKey, const void *Value, size_t ValueSize)
{
    if (ValueSize == sizeof(int32)) {
        memcpy(&entry_of(FuncKey)->result, Value, ValueSize);
    }
}

void UT_Stub_Begin(UT_StubContext_t *Context)
{
    memset(Context, 0, sizeof *Context);
}

void UT_Stub_Add(UT_StubContext_t *Context, const char *Name, const void *Value, size_t Size)
{
    Context->Name[Context->ArgCount] = Name;
    Context->ArgPtr[Context->ArgCount] = Value;
    Context->Size[Context->ArgCount] = Size;
    Context->ArgCount += 1;
}

void UT_Stub_Execute(UT_EntryKey_t FuncKey, UT_StubContext_t *Context)
{
    struct entry *entry = entry_of(FuncKey);

    entry->calls += 1;
    Context->IsForced = entry->has_default;
    Context->Forced = entry->has_default ? entry->value : 0;
    if (entry->count > 0) {
        entry->count -= 1;
        if (entry->count == 0) {
            Context->IsForced = true;
            Context->Forced = entry->deferred;
        }
    }
    entry->result = Context->Forced;
    if (entry->handler != NULL) {
        entry->handler(entry->object, FuncKey, Context);
    }
}

int32 UT_Stub_Value(UT_EntryKey_t FuncKey)
{
    return entry_of(FuncKey)->result;
}
