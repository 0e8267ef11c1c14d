#include "procedures.h"

#include "reading.h"

#include <string.h>

static const struct workload workloads[] = {
    {"pay",
     {{"pay",
       {{"account", 0}, {"account", 1}},
       "local left, there, sum = redis.call('GET', KEYS[1]), redis.call('GET', KEYS[2]), tonumber(ARGV[3])\n"
       "if not left or not there then return 1 end\n"
       "left, there = tonumber(left), tonumber(there)\n"
       "if left < sum then return 100 end\n"
       "redis.call('SET', KEYS[1], left - sum)\n"
       "redis.call('SET', KEYS[2], there + sum)\n"
       "return {left - sum}"},
      {"hop",
       {{"pointer", 0}},
       "local account = redis.call('GET', KEYS[1])\n"
       "if not account then return 1 end\n"
       "if redis.call('EXISTS', 'account:' .. account) == 0 then return 1 end\n"
       "redis.call('INCR', 'account:' .. account)\n"
       "return {tonumber(account)}"}}},
    {"smallbank",
     {{"balance",
       {{"savings", 0}, {"checking", 0}},
       "local saved, held = redis.call('GET', KEYS[1]), redis.call('GET', KEYS[2])\n"
       "if not saved or not held then return 1 end\n"
       "return {saved + held}"},
      {"deposit_checking",
       {{"checking", 0}},
       "if tonumber(ARGV[2]) < 0 then return 101 end\n"
       "if redis.call('EXISTS', KEYS[1]) == 0 then return 1 end\n"
       "return {redis.call('INCRBY', KEYS[1], ARGV[2])}"},
      {"transact_savings",
       {{"savings", 0}},
       "local saved = redis.call('GET', KEYS[1])\n"
       "if not saved then return 1 end\n"
       "if saved + ARGV[2] < 0 then return 102 end\n"
       "return {redis.call('INCRBY', KEYS[1], ARGV[2])}"},
      {"amalgamate",
       {{"savings", 0}, {"checking", 0}, {"checking", 1}},
       "local saved, held = redis.call('GET', KEYS[1]), redis.call('GET', KEYS[2])\n"
       "if not saved or not held or redis.call('EXISTS', KEYS[3]) == 0 then return 1 end\n"
       "redis.call('MSET', KEYS[1], 0, KEYS[2], 0)\n"
       "return {redis.call('INCRBY', KEYS[3], saved + held)}"},
      {"write_check",
       {{"savings", 0}, {"checking", 0}},
       "local saved, held, taken = redis.call('GET', KEYS[1]), redis.call('GET', KEYS[2]), tonumber(ARGV[2])\n"
       "if not saved or not held then return 1 end\n"
       "if saved + held < taken then taken = taken + 1 end\n"
       "return {redis.call('DECRBY', KEYS[2], taken)}"},
      {"send_payment",
       {{"checking", 0}, {"checking", 1}},
       "local held, amount = redis.call('GET', KEYS[1]), tonumber(ARGV[3])\n"
       "if not held then return 1 end\n"
       "if tonumber(held) < amount then return 103 end\n"
       "if redis.call('EXISTS', KEYS[2]) == 0 then return 1 end\n"
       "redis.call('DECRBY', KEYS[1], amount)\n"
       "redis.call('INCRBY', KEYS[2], amount)\n"
       "return {held - amount}"}}},
    {"ycsb",
     {{"read", {{"record", 0}}, NULL},
      {"update",
       {{"record", 0}},
       "if redis.call('EXISTS', KEYS[1]) == 0 then return 1 end\n"
       "redis.call('HSET', KEYS[1], 'f' .. ARGV[3], ARGV[2])\n"
       "return {}"},
      {"modify",
       {{"record", 0}},
       "local fields = redis.call('HMGET', KEYS[1], 'f0', 'f1', 'f2', 'f3', 'f4', 'f5', 'f6', 'f7', 'f8', 'f9')\n"
       "if not fields[1] then return 1 end\n"
       "redis.call('HSET', KEYS[1], 'f' .. ARGV[3], ARGV[2])\n"
       "return fields"}}},
};

const struct workload *workload_named(const char *name)
{
    for (size_t place = 0; place < sizeof workloads / sizeof *workloads; place++)
        if (strcmp(workloads[place].name, name) == 0)
            return &workloads[place];
    fail("there is no such workload");
}
