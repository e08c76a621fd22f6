/* The standard's services over the lines of `mcal_live`. The C stack has a loop for each frame under way. */
#include <stdarg.h>
#include <stddef.h>
#include <stdio.h>
#include <stdlib.h>
#include <string.h>

#include "Adc.h"
#include "Dio.h"
#include "Gpt.h"
#include "Icu.h"
#include "Mcal.h"
#include "Mcal_Link.h"
#include "Mcal_Text.h"
#include "Mcu.h"
#include "Port.h"
#include "Pwm.h"
#include "Spi.h"
#include "Wdg.h"

/* ---- what the program tells */

#define WORD 40
#define NUMBERS 64
#define MOST_TICKS 1000000u /* in one line */

/* What the answer to a line tells: of a step at most one callback or report, the end of its frame, and a reset. */
typedef struct {
  boolean has_note, has_error, runtime, ended, is_reset;
  uint32 note_number, dropped, value, count, words[NUMBERS];
  char held[WORD], note[WORD], service[WORD], error[WORD], name[WORD], reset[WORD], next[WORD], reg[WORD];
} Told;

/* Nothing is told yet. */
static void clear(Told *told) {
  memset(told, 0, offsetof(Told, words));
  told->held[0] = told->note[0] = told->service[0] = told->error[0] = 0;
  told->name[0] = told->reset[0] = told->next[0] = told->reg[0] = 0;
}

typedef void (*Row)(char *row, void *to);

static uint32 frames, top_level, pending;
static boolean in_hook;

uint8 Mcal_Level;
boolean Mcal_HookNests;
unsigned long Mcal_Steps;
const char *Mcal_Refusal = "";
void (*Mcal_Hook)(void);
uint16 (*Mcal_Exchange)(uint8, uint16);

static void stop(const char *what, const char *why) {
  fprintf(stderr, "%s: %s\n", what, why);
  abort();
}
static void held_by_default(const char *service, const char *cause) { stop(service, cause); }
static void reset_by_default(const char *reason, uint32 dropped) { (void)dropped; stop("a reset", reason); }
void (*Mcal_OnHeld)(const char *, const char *) = held_by_default;
void (*Mcal_OnReset)(const char *, uint32) = reset_by_default;
void (*Mcal_OnError)(const char *, const char *, uint8, boolean);
void (*Mcal_OnNotice)(const char *, uint32);

static void copy(char *to, const char *from) {
  size_t length = from ? strlen(from) : 0;
  if (length > WORD - 1) length = WORD - 1;
  if (length) memcpy(to, from, length);
  to[length] = 0;
}

/* ---- answers */

/* A state line: `> FRAMES at LEVEL masked pending LINE ..`, without what isn't so. */
static void take_state(char *line) {
  char *rest = line + 1, *word;
  frames = next_number(&rest);
  top_level = pending = 0;
  while ((word = next_word(&rest)) != NULL) {
    const char *end;
    if (*word == 'a') top_level = next_number(&rest);
    else if (*word <= '9') pending |= (uint32)1 << (number_of(word, &end) & 31u);
  }
}

static void take_answer(Told *told, char *rest) {
  for (char *word; (word = next_word(&rest)) != NULL;) {
    const char *end;
    uint32 value = number_of(word, &end);
    if (*end) { if (!told->name[0]) copy(told->name, word); }
    else if (told->count < NUMBERS) told->words[told->count++] = value;
  }
  told->ended = TRUE;
}

/* Takes a line of an answer, without its number. */
static void take_line(char *row, void *to) {
  Told *told = to;
  char *rest = row, *kind = next_word(&rest);
  if (!kind) return;
  if (!strcmp(kind, "return")) {
    next_word(&rest);
    take_answer(told, rest);
  } else if (!strcmp(kind, "held")) copy(told->held, next_word(&rest));
  else if (!strcmp(kind, "fault")) copy(told->held, "refused");
  else if (!strcmp(kind, "note")) {
    copy(told->note, next_word(&rest));
    told->note_number = next_number(&rest);
    told->has_note = TRUE;
  } else if (!strcmp(kind, "error") || !strcmp(kind, "runtime")) {
    told->runtime = kind[0] == 'r';
    copy(told->service, next_word(&rest));
    copy(told->error, next_word(&rest));
    told->has_error = TRUE;
  } else if (!strcmp(kind, "left")) told->ended = TRUE;
  else if (!strcmp(kind, "reset")) {
    copy(told->reset, next_word(&rest));
    told->dropped = next_number(&rest);
    told->is_reset = TRUE;
  } else if (!strcmp(kind, "next")) {
    copy(told->next, next_word(&rest));
    copy(told->reg, next_word(&rest));
    told->value = next_number(&rest);
  }
}

/* Hears an answer to its state line, and hands out each line before it without its number. FALSE: none comes more. */
static boolean read_answer(Row row, void *to) {
  static char refusal[256];
  for (char *line; (line = Mcal_Hear()) != NULL;) {
    if (line[0] == '>') {
      take_state(line);
      return TRUE;
    }
    if (line[0] == 'c' || line[0] == 't' || line[0] == 'n') { /* configuration fault .., too long .., no program .. */
      snprintf(refusal, sizeof refusal, "%s", line);
      Mcal_Refusal = refusal;
      return FALSE;
    }
    char *space = strchr(line, ' ');
    if (row && space) row(space + 1, to);
  }
  Mcal_Refusal = "the program has ended";
  return FALSE;
}

static void say(const char *line) {
  if (!Mcal_LinkIsOn()) stop(line, "the power is off");
  Mcal_Say(line);
}
static void ask_rows(Row row, void *to, const char *line) {
  say(line);
  if (!read_answer(row, to)) stop(line, Mcal_Refusal);
}

/* Says a line, and hears what it tells. */
static void ask_line(const char *line, Told *told) {
  clear(told);
  say(line);
  if (!read_answer(take_line, told)) stop(line, Mcal_Refusal);
}
static Told ask(const char *format, ...) {
  char line[128];
  Told told;
  va_list arguments;
  va_start(arguments, format);
  put(line, line + sizeof line, format, arguments);
  va_end(arguments);
  ask_line(line, &told);
  return told;
}

/* ---- callbacks, errors, and steps */

typedef struct { char kind[WORD]; uint32 number; void (*callback)(void); } Callback;
static Callback callbacks[128];
static size_t callback_count;

static const char *const notices[] = {
  "GptNotification", "EcuM_CheckWakeup", "EcuM_SetWakeupEvent", "PwmNotification", "IcuSignalNotification",
  "IcuTimestampNotification", "AdcNotification", "SpiJobEndNotification", "SpiSeqEndNotification", NULL
};

/* How many letters have to be changed, dropped or put in to make the one word of the other; of a word too long, its length. */
static size_t apart(const char *one, const char *other) {
  size_t costs[WORD], length = strlen(other);
  if (strlen(one) >= WORD || length >= WORD) return strlen(one);
  for (size_t at = 0; at <= length; at++) costs[at] = at;
  for (size_t row = 1; one[row - 1]; row++) {
    size_t corner = costs[0];
    costs[0] = row;
    for (size_t at = 1; at <= length; at++) {
      size_t least = corner + (one[row - 1] != other[at - 1]);
      corner = costs[at];
      if (corner + 1 < least) least = corner + 1;
      if (costs[at - 1] + 1 < least) least = costs[at - 1] + 1;
      costs[at] = least;
    }
  }
  return costs[length];
}

/* Stops where a word is no notice, with the nearest one. */
static void check_notice(const char *kind) {
  const char *nearest = notices[0];
  for (size_t at = 0; notices[at]; at++)
    if (apart(kind, notices[at]) < apart(kind, nearest)) nearest = notices[at];
  if (!strcmp(kind, nearest)) return;
  fprintf(stderr, "Mcal_On: no notice is %s; did you mean %s?\n", kind, nearest);
  abort();
}

void Mcal_On(const char *kind, uint32 number, void (*callback)(void)) {
  size_t at = 0;
  check_notice(kind);
  while (at < callback_count && (callbacks[at].number != number || strcmp(callbacks[at].kind, kind))) at++;
  if (at == sizeof callbacks / sizeof *callbacks) stop(kind, "too many callbacks");
  copy(callbacks[at].kind, kind);
  callbacks[at].number = number;
  callbacks[at].callback = callback;
  if (at == callback_count) callback_count++;
}

static void call_back(const char *kind, uint32 number) {
  if (Mcal_OnNotice) Mcal_OnNotice(kind, number);
  for (size_t at = 0; at < callback_count; at++)
    if (callbacks[at].callback && callbacks[at].number == number && !strcmp(callbacks[at].kind, kind)) callbacks[at].callback();
}

#define VALUE(error) { #error, error }
static const struct { const char *name; uint8 value; } errors[] = {
  VALUE(MCU_E_UNINIT), VALUE(MCU_E_PARAM_RAMSECTION), VALUE(MCU_E_PARAM_CLOCK), VALUE(MCU_E_PLL_NOT_LOCKED), VALUE(MCU_E_PARAM_MODE),
  VALUE(PORT_E_UNINIT), VALUE(PORT_E_PARAM_PIN), VALUE(PORT_E_DIRECTION_UNCHANGEABLE), VALUE(PORT_E_PARAM_INVALID_MODE), VALUE(PORT_E_MODE_UNCHANGEABLE),
  VALUE(GPT_E_ALREADY_INITIALIZED), VALUE(GPT_E_UNINIT), VALUE(GPT_E_BUSY), VALUE(GPT_E_MODE), VALUE(GPT_E_PARAM_CHANNEL), VALUE(GPT_E_PARAM_VALUE), VALUE(GPT_E_PARAM_MODE),
  VALUE(PWM_E_ALREADY_INITIALIZED), VALUE(PWM_E_UNINIT), VALUE(PWM_E_PARAM_CHANNEL), VALUE(PWM_E_PERIOD_UNCHANGEABLE),
  VALUE(ICU_E_ALREADY_INITIALIZED), VALUE(ICU_E_UNINIT), VALUE(ICU_E_PARAM_CHANNEL), VALUE(ICU_E_PARAM_ACTIVATION), VALUE(ICU_E_PARAM_BUFFER_SIZE), VALUE(ICU_E_PARAM_NOTIFY_INTERVAL), VALUE(ICU_E_NOT_STARTED),
  VALUE(ADC_E_ALREADY_INITIALIZED), VALUE(ADC_E_UNINIT), VALUE(ADC_E_BUSY), VALUE(ADC_E_IDLE), VALUE(ADC_E_PARAM_GROUP), VALUE(ADC_E_PARAM_POINTER), VALUE(ADC_E_WRONG_TRIGG_SRC), VALUE(ADC_E_BUFFER_UNINIT), VALUE(ADC_E_NOTIF_CAPABILITY),
  VALUE(SPI_E_ALREADY_INITIALIZED), VALUE(SPI_E_UNINIT), VALUE(SPI_E_PARAM_CHANNEL), VALUE(SPI_E_PARAM_LENGTH), VALUE(SPI_E_PARAM_SEQ), VALUE(SPI_E_SEQ_PENDING), VALUE(SPI_E_SEQ_IN_PROCESS), VALUE(SPI_E_PARAM_JOB), VALUE(SPI_E_PARAM_UNIT),
  VALUE(DIO_E_PARAM_INVALID_CHANNEL_ID), VALUE(DIO_E_PARAM_INVALID_PORT_ID), VALUE(DIO_E_PARAM_INVALID_GROUP),
  VALUE(WDG_E_DRIVER_STATE), VALUE(WDG_E_PARAM_MODE), VALUE(WDG_E_PARAM_TIMEOUT),
};

static void tell_error(const Told *told) {
  uint8 value = 0;
  for (size_t at = 0; at < sizeof errors / sizeof *errors; at++)
    if (!strcmp(errors[at].name, told->error)) value = errors[at].value;
  if (Mcal_OnError) Mcal_OnError(told->service, told->error, value, told->runtime);
}

static void tell_reset(const Told *told) {
  in_hook = FALSE;
  Mcal_Level = 0;
  Mcal_OnReset(told->reset, told->dropped);
  stop("Mcal_OnReset", "it returned");
}
static void meet_reset(const Told *told) {
  if (told->is_reset && told->dropped) tell_reset(told);
}

static void hook(void) {
  if (!Mcal_Hook || (in_hook && !Mcal_HookNests)) return;
  boolean outer = in_hook;
  uint8 level = Mcal_Level;
  in_hook = TRUE;
  Mcal_Hook();
  in_hook = outer;
  Mcal_Level = level;
}

/* Asks the device for the word that comes in with the next step, where that begins one. */
static void exchange(void) {
  Told told = ask("peek");
  if (strcmp(told.next, "write") || told.reg[0] != 'S' || strcmp(told.reg + 2, ".DATA")) return;
  uint8 unit = (uint8)(told.reg[1] - '0');
  Mcal_Miso(unit, Mcal_Exchange(unit, (uint16)told.value));
}

static void refresh(void);

static boolean goes_by_steps(void) { return Mcal_Hook || Mcal_Exchange; }

/* Makes a step of the top frame, or all to the next that tells something. */
static void move_on(Told *told) {
  hook();
  if (Mcal_Exchange) exchange();
  if (goes_by_steps()) Mcal_Steps++;
  ask_line(goes_by_steps() ? "step" : "next", told);
}

/* Makes steps of the top frame until it ends, the first of which were made where `moved`, and tells its answer, with whether an
   error was reported. */
static void finish(Told *told, boolean moved) {
  boolean erred = FALSE;
  for (;; moved = FALSE) {
    if (!moved) move_on(told);
    if (told->held[0]) stop("a step", told->held);
    meet_reset(told);
    erred = erred || told->has_error;
    if (told->has_error) tell_error(told);
    if (told->has_note) {
      uint8 level = Mcal_Level;
      Mcal_Level = (uint8)top_level;
      call_back(told->note, told->note_number);
      Mcal_Level = level;
    }
    if (told->ended) break;
  }
  told->has_error = erred;
  if (frames == 0) refresh();
}

/* Calls a service with arguments as text, and tells its answer, an empty one where it is held. Without a hook its first steps
   are asked for in the same go. */
static void call(Told *told, const char *service, const char *format, ...) {
  char line[160], *end = line + sizeof line, *to;
  boolean in_one_go = !goes_by_steps();
  va_list arguments;
  to = put_number(put_word(line, end, in_one_go ? "next do " : "call "), Mcal_Level);
  *to++ = ' ';
  to = put_word(to, end, service);
  *to++ = ' ';
  va_start(arguments, format);
  put(to, end, format, arguments);
  va_end(arguments);
  ask_line(line, told);
  if (told->held[0]) {
    Mcal_OnHeld(service, told->held);
    clear(told);
  } else {
    finish(told, in_one_go);
  }
}

/* The place of the answer's name among these, the last of which is NULL; of no answer this one. */
static uint32 named(const Told *told, uint32 none, const char *const *names) {
  for (uint32 at = 0; names[at]; at++)
    if (!strcmp(told->name, names[at])) return at;
  return none;
}
#define NAMES(...) ((const char *const[]){__VA_ARGS__, NULL})

static Std_ReturnType ok(const Told *told) { return strcmp(told->name, "E_OK") ? E_NOT_OK : E_OK; }
static uint32 number_at(const Told *told, uint32 place) { return place < told->count ? told->words[place] : 0; }
static uint32 number(const Told *told) { return number_at(told, 0); }

/* ---- power and what happens outside */

/* Hands a line of an answer on as text. */
typedef struct { void (*tell)(const char *row); } Teller;
static void hand_on(char *row, void *to) {
  Teller *teller = to;
  if (teller->tell) teller->tell(row);
}
void Mcal_Line(const char *line, void (*tell)(const char *row)) {
  Teller teller = { tell };
  if (strchr(line, '\n')) stop(line, "more than one line");
  ask_rows(hand_on, &teller, line);
}

static void forget(void);

int Mcal_PowerOn(const char *configuration) {
  Mcal_PowerOff();
  if (!strncmp(configuration, "---\n", 4) || strstr(configuration, "\n---\n")) {
    Mcal_Refusal = "the configuration has a line ---";
    return -1;
  }
  Mcal_LinkOn(configuration);
  if (!read_answer(NULL, NULL)) return -1;
  forget();
  return 0;
}
void Mcal_PowerCycle(void) {
  ask("power on");
  forget();
}
void Mcal_PowerOff(void) { Mcal_LinkOff(); }
static void outside(Told told) {
  if (told.held[0]) stop("what happens outside", told.held);
  meet_reset(&told);
}
void Mcal_Tick(uint32 ticks) {
  Told reset;
  clear(&reset);
  for (uint32 left = ticks, piece; ; left -= piece) {
    piece = left < MOST_TICKS ? left : MOST_TICKS;
    Told told = ask("tick %u", piece);
    if (told.held[0]) outside(told);
    if (told.is_reset) reset = told;
    if (left == piece) break;
  }
  if (reset.is_reset) tell_reset(&reset);
}
void Mcal_SetLevel(uint8 pin, boolean level) { outside(ask("level %u %u", (unsigned)pin, level ? 1u : 0u)); }
void Mcal_SetAnalog(uint8 input, uint16 value) { outside(ask("analog %u %u", (unsigned)input, (unsigned)value)); }
void Mcal_Trigger(uint8 input) { outside(ask("trigger %u", (unsigned)input)); }
void Mcal_Miso(uint8 unit, uint16 word) { outside(ask("miso %u %u", (unsigned)unit, (unsigned)word)); }
void Mcal_SpiFault(uint8 unit) { outside(ask("spifault %u", (unsigned)unit)); }
void Mcal_Detach(void) { outside(ask("detach")); }
void Mcal_Reset(const char *kind) { outside(ask("reset %s", kind)); }
uint32 Mcal_Pending(void) { return pending; }

const char *Mcal_Interrupt(uint8 line) {
  static char cause[WORD];
  boolean in_one_go = !goes_by_steps();
  Told told = ask("%s %u", in_one_go ? "next serve" : "enter", (unsigned)line);
  if (told.held[0]) {
    copy(cause, told.held);
    return cause;
  }
  finish(&told, in_one_go);
  return NULL;
}

uint32 Mcal_Serve(void) {
  uint32 lines = pending, entered = 0;
  for (uint8 line = 0; line < 32; line++)
    if (lines >> line & 1u && !Mcal_Interrupt(line)) entered++;
  return entered;
}

typedef struct { uint32 pin; int level; } Seen;
static void take_pin(char *row, void *to) {
  Seen *seen = to;
  char *rest = row, *kind = next_word(&rest);
  uint32 pin = next_number(&rest);
  if (kind && !strcmp(kind, "pin") && pin == seen->pin) seen->level = (int)next_number(&rest);
}
int Mcal_Pin(uint8 pin) {
  Seen seen = { pin, -1 };
  ask_rows(take_pin, &seen, "show pins");
  return seen.level;
}

/* ---- the users' arrays */

static Adc_ValueGroupType *results[16][2];
static Icu_ValueType *stamps[8];
static struct { const Spi_DataBufferType *source; Spi_DataBufferType *destination; Spi_NumberOfDataType length; } external[16];
static uint32 lengths[16];
static boolean has_arrays;

/* Copies a row of `show buffers` to the array that it is of: `adc 0 1: ..`, `icu 0: ..`, `spi 0 src: ..`. */
static void take_row(char *row, void *to) {
  char *values = strchr(row, ':'), *rest = row;
  const char *end;
  (void)to;
  if (!values) return;
  *values++ = 0;
  char *kind = next_word(&rest);
  uint32 object = next_number(&rest), place = 0;
  char *side = next_word(&rest);
  if (!kind || object > 15) return;
  if (!side) side = rest;
  Adc_ValueGroupType *result = strcmp(kind, "adc") ? NULL : results[object][number_of(side, &end) & 1u];
  Icu_ValueType *stamp = strcmp(kind, "icu") || object > 7 ? NULL : stamps[object];
  Spi_DataBufferType *word = strcmp(side, "dst") ? NULL : external[object].destination;
  for (char *value; (value = next_word(&values)) != NULL; place++) {
    uint32 number = number_of(value, &end);
    if (result) result[place] = (Adc_ValueGroupType)number;
    if (stamp) stamp[place] = (Icu_ValueType)number;
    if (word && place < external[object].length) word[place] = (Spi_DataBufferType)number;
  }
  if (!strcmp(side, "src")) lengths[object] = place;
}
static void refresh(void) {
  if (has_arrays) ask_rows(take_row, NULL, "show buffers");
}
static void forget(void) {
  memset(results, 0, sizeof results);
  memset(stamps, 0, sizeof stamps);
  memset(external, 0, sizeof external);
  memset(lengths, 0, sizeof lengths);
  has_arrays = in_hook = FALSE;
  Mcal_Steps = 0;
  ask_rows(take_row, NULL, "show buffers");
}
/* Stores words in a serial channel's source array; a channel that is in use keeps what it has. */
static void fill(uint32 channel, const Spi_DataBufferType *words, uint32 count) {
  char line[512], *end = line + sizeof line, *to = put_number(put_word(line, end, "fill "), channel);
  for (uint32 place = 0; place < count && end - to > 12; place++) {
    *to++ = ' ';
    to = put_number(to, words[place]);
  }
  *to = 0;
  if (count) ask_rows(NULL, NULL, line);
}

/* ---- the services */

#define ONE(service, type) void service(type first) { Told t; call(&t, #service, "%u", (unsigned)first); }
#define NONE(service) void service(void) { Told t; call(&t, #service, ""); }
#define INIT(module) void module##_Init(const module##_ConfigType *ConfigPtr) { Told t; (void)ConfigPtr; call(&t, #module "_Init", ""); }

INIT(Mcu)
Std_ReturnType Mcu_InitRamSection(Mcu_RamSectionType section) { Told t; call(&t, "Mcu_InitRamSection", "%u", (unsigned)section); return ok(&t); }
Std_ReturnType Mcu_InitClock(Mcu_ClockType setting) { Told t; call(&t, "Mcu_InitClock", "%u", (unsigned)setting); return ok(&t); }
Std_ReturnType Mcu_DistributePllClock(void) { Told t; call(&t, "Mcu_DistributePllClock", ""); return ok(&t); }
Mcu_PllStatusType Mcu_GetPllStatus(void) { Told t; call(&t, "Mcu_GetPllStatus", ""); return (Mcu_PllStatusType)named(&t, MCU_PLL_STATUS_UNDEFINED, NAMES("MCU_PLL_LOCKED", "MCU_PLL_UNLOCKED", "MCU_PLL_STATUS_UNDEFINED")); }
Mcu_ResetType Mcu_GetResetReason(void) { Told t; call(&t, "Mcu_GetResetReason", ""); return (Mcu_ResetType)named(&t, MCU_RESET_UNDEFINED, NAMES("MCU_POWER_ON_RESET", "MCU_WATCHDOG_RESET", "MCU_SW_RESET", "MCU_RESET_UNDEFINED")); }
NONE(Mcu_PerformReset)
ONE(Mcu_SetMode, Mcu_ModeType)

INIT(Port)
void Port_SetPinDirection(Port_PinType pin, Port_PinDirectionType direction) { Told t; call(&t, "Port_SetPinDirection", "%u %s", (unsigned)pin, direction == PORT_PIN_OUT ? "PORT_PIN_OUT" : "PORT_PIN_IN"); }
NONE(Port_RefreshPortDirection)
void Port_SetPinMode(Port_PinType pin, Port_PinModeType mode) {
  static const char *const modes[] = { "PORT_PIN_MODE_ADC", "PORT_PIN_MODE_DIO", "PORT_PIN_MODE_ICU", "PORT_PIN_MODE_PWM", "PORT_PIN_MODE_SPI" };
  Told t;
  call(&t, "Port_SetPinMode", "%u %s", (unsigned)pin, mode < 5 ? modes[mode] : "INVALID");
}

INIT(Gpt)
NONE(Gpt_DeInit)
Gpt_ValueType Gpt_GetTimeElapsed(Gpt_ChannelType channel) { Told t; call(&t, "Gpt_GetTimeElapsed", "%u", (unsigned)channel); return number(&t); }
Gpt_ValueType Gpt_GetTimeRemaining(Gpt_ChannelType channel) { Told t; call(&t, "Gpt_GetTimeRemaining", "%u", (unsigned)channel); return number(&t); }
void Gpt_StartTimer(Gpt_ChannelType channel, Gpt_ValueType value) { Told t; call(&t, "Gpt_StartTimer", "%u %u", (unsigned)channel, (unsigned)value); }
ONE(Gpt_StopTimer, Gpt_ChannelType)
ONE(Gpt_EnableNotification, Gpt_ChannelType)
ONE(Gpt_DisableNotification, Gpt_ChannelType)
void Gpt_SetMode(Gpt_ModeType mode) { Told t; call(&t, "Gpt_SetMode", "%s", mode == GPT_MODE_NORMAL ? "GPT_MODE_NORMAL" : mode == GPT_MODE_SLEEP ? "GPT_MODE_SLEEP" : "INVALID"); }
ONE(Gpt_EnableWakeup, Gpt_ChannelType)
ONE(Gpt_DisableWakeup, Gpt_ChannelType)
ONE(Gpt_CheckWakeup, EcuM_WakeupSourceType)

INIT(Pwm)
NONE(Pwm_DeInit)
void Pwm_SetDutyCycle(Pwm_ChannelType channel, uint16 duty) { Told t; call(&t, "Pwm_SetDutyCycle", "%u %u", (unsigned)channel, (unsigned)duty); }
void Pwm_SetPeriodAndDuty(Pwm_ChannelType channel, Pwm_PeriodType period, uint16 duty) { Told t; call(&t, "Pwm_SetPeriodAndDuty", "%u %u %u", (unsigned)channel, (unsigned)period, (unsigned)duty); }
ONE(Pwm_SetOutputToIdle, Pwm_ChannelType)
Pwm_OutputStateType Pwm_GetOutputState(Pwm_ChannelType channel) { Told t; call(&t, "Pwm_GetOutputState", "%u", (unsigned)channel); return (Pwm_OutputStateType)named(&t, PWM_LOW, NAMES("PWM_LOW", "PWM_HIGH")); }
void Pwm_EnableNotification(Pwm_ChannelType channel, Pwm_EdgeNotificationType edges) { Told t; call(&t, "Pwm_EnableNotification", "%u %s", (unsigned)channel, edges == PWM_RISING_EDGE ? "PWM_RISING_EDGE" : edges == PWM_FALLING_EDGE ? "PWM_FALLING_EDGE" : "PWM_BOTH_EDGES"); }
ONE(Pwm_DisableNotification, Pwm_ChannelType)

INIT(Icu)
NONE(Icu_DeInit)
void Icu_SetActivationCondition(Icu_ChannelType channel, Icu_ActivationType edges) { Told t; call(&t, "Icu_SetActivationCondition", "%u %s", (unsigned)channel, edges == ICU_RISING_EDGE ? "ICU_RISING_EDGE" : edges == ICU_FALLING_EDGE ? "ICU_FALLING_EDGE" : edges == ICU_BOTH_EDGES ? "ICU_BOTH_EDGES" : "INVALID"); }
ONE(Icu_EnableNotification, Icu_ChannelType)
ONE(Icu_DisableNotification, Icu_ChannelType)
Icu_InputStateType Icu_GetInputState(Icu_ChannelType channel) { Told t; call(&t, "Icu_GetInputState", "%u", (unsigned)channel); return (Icu_InputStateType)named(&t, ICU_IDLE, NAMES("ICU_ACTIVE", "ICU_IDLE")); }
ONE(Icu_EnableEdgeDetection, Icu_ChannelType)
ONE(Icu_DisableEdgeDetection, Icu_ChannelType)
ONE(Icu_ResetEdgeCount, Icu_ChannelType)
ONE(Icu_EnableEdgeCount, Icu_ChannelType)
ONE(Icu_DisableEdgeCount, Icu_ChannelType)
Icu_EdgeNumberType Icu_GetEdgeNumbers(Icu_ChannelType channel) { Told t; call(&t, "Icu_GetEdgeNumbers", "%u", (unsigned)channel); return number(&t); }
void Icu_StartTimestamp(Icu_ChannelType channel, Icu_ValueType *buffer, uint16 size, uint16 interval) {
  Told t;
  call(&t, "Icu_StartTimestamp", "%u %u %u", (unsigned)channel, (unsigned)size, (unsigned)interval);
  if (t.ended && !t.has_error && channel < 8) stamps[channel] = buffer, has_arrays = TRUE;
}
ONE(Icu_StopTimestamp, Icu_ChannelType)
Icu_IndexType Icu_GetTimestampIndex(Icu_ChannelType channel) { Told t; call(&t, "Icu_GetTimestampIndex", "%u", (unsigned)channel); return (Icu_IndexType)number(&t); }
ONE(Icu_StartSignalMeasurement, Icu_ChannelType)
ONE(Icu_StopSignalMeasurement, Icu_ChannelType)
Icu_ValueType Icu_GetTimeElapsed(Icu_ChannelType channel) { Told t; call(&t, "Icu_GetTimeElapsed", "%u", (unsigned)channel); return number(&t); }
void Icu_GetDutyCycleValues(Icu_ChannelType channel, Icu_DutyCycleType *values) {
  Told t;
  call(&t, "Icu_GetDutyCycleValues", "%u", (unsigned)channel);
  values->ActiveTime = number_at(&t, 0);
  values->PeriodTime = number_at(&t, 1);
}

INIT(Adc)
NONE(Adc_DeInit)
Std_ReturnType Adc_SetupResultBuffer(Adc_GroupType group, Adc_ValueGroupType *buffer) {
  static const char *const names[] = { "0", "1" };
  Adc_ValueGroupType **known = results[group & 15u];
  unsigned place = !known[0] || known[0] == buffer ? 0u : 1u;
  Told t;
  call(&t, "Adc_SetupResultBuffer", "%u %s", (unsigned)group, buffer ? names[place] : "null");
  if (ok(&t) == E_OK && group < 16) known[place] = buffer, has_arrays = TRUE;
  return ok(&t);
}
ONE(Adc_StartGroupConversion, Adc_GroupType)
ONE(Adc_StopGroupConversion, Adc_GroupType)
Std_ReturnType Adc_ReadGroup(Adc_GroupType group, Adc_ValueGroupType *to) {
  Told t;
  call(&t, "Adc_ReadGroup", "%u", (unsigned)group);
  for (uint32 place = 0; place < t.count; place++) to[place] = (Adc_ValueGroupType)t.words[place];
  return ok(&t);
}
ONE(Adc_EnableHardwareTrigger, Adc_GroupType)
ONE(Adc_DisableHardwareTrigger, Adc_GroupType)
ONE(Adc_EnableGroupNotification, Adc_GroupType)
ONE(Adc_DisableGroupNotification, Adc_GroupType)
Adc_StatusType Adc_GetGroupStatus(Adc_GroupType group) { Told t; call(&t, "Adc_GetGroupStatus", "%u", (unsigned)group); return (Adc_StatusType)named(&t, ADC_IDLE, NAMES("ADC_IDLE", "ADC_BUSY", "ADC_COMPLETED", "ADC_STREAM_COMPLETED")); }
static Adc_ValueGroupType *chosen(Adc_GroupType group);
Adc_StreamNumSampleType Adc_GetStreamLastPointer(Adc_GroupType group, Adc_ValueGroupType **sample) {
  Told t;
  call(&t, "Adc_GetStreamLastPointer", "%u", (unsigned)group);
  Adc_ValueGroupType *buffer = chosen(group);
  *sample = t.count > 1 && buffer ? buffer + t.words[1] : NULL;
  return (Adc_StreamNumSampleType)number(&t);
}
static void take_chosen(char *row, void *to) {
  uint32 *found = to;
  char *rest = row, *kind = next_word(&rest);
  uint32 group = next_number(&rest);
  if (kind && !strcmp(kind, "adc") && group == found[0]) found[1] = next_number(&rest);
}
/* The buffer that is chosen; where services are under way the first one. */
static Adc_ValueGroupType *chosen(Adc_GroupType group) {
  uint32 found[2] = { group, 0 };
  if (frames == 0) ask_rows(take_chosen, found, "show buffers");
  return results[group & 15u][found[1] & 1u];
}

INIT(Spi)
Std_ReturnType Spi_DeInit(void) { Told t; call(&t, "Spi_DeInit", ""); return ok(&t); }
Std_ReturnType Spi_WriteIB(Spi_ChannelType channel, const Spi_DataBufferType *words) {
  if (words && channel < 16) fill(channel, words, lengths[channel]);
  Told t;
  call(&t, "Spi_WriteIB", "%u %s", (unsigned)channel, words ? "src" : "null");
  return ok(&t);
}
Std_ReturnType Spi_ReadIB(Spi_ChannelType channel, Spi_DataBufferType *to) {
  Told t;
  call(&t, "Spi_ReadIB", "%u", (unsigned)channel);
  for (uint32 place = 0; place < t.count; place++) to[place] = (Spi_DataBufferType)t.words[place];
  return ok(&t);
}
Std_ReturnType Spi_SetupEB(Spi_ChannelType channel, const Spi_DataBufferType *source, Spi_DataBufferType *destination, Spi_NumberOfDataType length) {
  if (channel < 16) {
    external[channel].source = source;
    external[channel].destination = destination;
    external[channel].length = length;
    has_arrays = TRUE;
  }
  Told t;
  call(&t, "Spi_SetupEB", "%u %s %s %u", (unsigned)channel, source ? "src" : "null", destination ? "dst" : "null", (unsigned)length);
  return ok(&t);
}
static void fill_sources(void) {
  for (uint32 channel = 0; channel < 16; channel++)
    if (external[channel].source) fill(channel, external[channel].source, external[channel].length);
}
Std_ReturnType Spi_AsyncTransmit(Spi_SequenceType sequence) {
  fill_sources();
  Told t;
  call(&t, "Spi_AsyncTransmit", "%u", (unsigned)sequence);
  return ok(&t);
}
Std_ReturnType Spi_SyncTransmit(Spi_SequenceType sequence) {
  fill_sources();
  Told t;
  call(&t, "Spi_SyncTransmit", "%u", (unsigned)sequence);
  return ok(&t);
}
ONE(Spi_Cancel, Spi_SequenceType)
#define STATUS NAMES("SPI_UNINIT", "SPI_IDLE", "SPI_BUSY")
Spi_StatusType Spi_GetStatus(void) { Told t; call(&t, "Spi_GetStatus", ""); return (Spi_StatusType)named(&t, SPI_UNINIT, STATUS); }
Spi_JobResultType Spi_GetJobResult(Spi_JobType job) { Told t; call(&t, "Spi_GetJobResult", "%u", (unsigned)job); return (Spi_JobResultType)named(&t, SPI_JOB_FAILED, NAMES("SPI_JOB_OK", "SPI_JOB_PENDING", "SPI_JOB_FAILED", "SPI_JOB_QUEUED")); }
Spi_SeqResultType Spi_GetSequenceResult(Spi_SequenceType sequence) { Told t; call(&t, "Spi_GetSequenceResult", "%u", (unsigned)sequence); return (Spi_SeqResultType)named(&t, SPI_SEQ_FAILED, NAMES("SPI_SEQ_OK", "SPI_SEQ_PENDING", "SPI_SEQ_FAILED", "SPI_SEQ_CANCELED")); }
Spi_StatusType Spi_GetHWUnitStatus(Spi_HWUnitType unit) { Told t; call(&t, "Spi_GetHWUnitStatus", "%u", (unsigned)unit); return (Spi_StatusType)named(&t, SPI_UNINIT, STATUS); }
Std_ReturnType Spi_SetAsyncMode(Spi_AsyncModeType mode) { Told t; call(&t, "Spi_SetAsyncMode", "%s", mode == SPI_POLLING_MODE ? "SPI_POLLING_MODE" : "SPI_INTERRUPT_MODE"); return ok(&t); }
NONE(Spi_MainFunction_Handling)

static const char *level_name(Dio_LevelType level) { return level == STD_LOW ? "STD_LOW" : "STD_HIGH"; }
static Dio_LevelType level(const Told *told) { return (Dio_LevelType)named(told, STD_LOW, NAMES("STD_LOW", "STD_HIGH")); }
static unsigned group_id(const Dio_ChannelGroupType *group) { return group ? group->id : 0xFFu; }
Dio_LevelType Dio_ReadChannel(Dio_ChannelType channel) { Told t; call(&t, "Dio_ReadChannel", "%u", (unsigned)channel); return level(&t); }
void Dio_WriteChannel(Dio_ChannelType channel, Dio_LevelType to) { Told t; call(&t, "Dio_WriteChannel", "%u %s", (unsigned)channel, level_name(to)); }
Dio_LevelType Dio_FlipChannel(Dio_ChannelType channel) { Told t; call(&t, "Dio_FlipChannel", "%u", (unsigned)channel); return level(&t); }
Dio_PortLevelType Dio_ReadPort(Dio_PortType port) { Told t; call(&t, "Dio_ReadPort", "%u", (unsigned)port); return (Dio_PortLevelType)number(&t); }
void Dio_WritePort(Dio_PortType port, Dio_PortLevelType to) { Told t; call(&t, "Dio_WritePort", "%u %u", (unsigned)port, (unsigned)to); }
Dio_PortLevelType Dio_ReadChannelGroup(const Dio_ChannelGroupType *group) { Told t; call(&t, "Dio_ReadChannelGroup", "%u", group_id(group)); return (Dio_PortLevelType)number(&t); }
void Dio_WriteChannelGroup(const Dio_ChannelGroupType *group, Dio_PortLevelType to) { Told t; call(&t, "Dio_WriteChannelGroup", "%u %u", group_id(group), (unsigned)to); }

INIT(Wdg)
Std_ReturnType Wdg_SetMode(WdgIf_ModeType mode) {
  static const char *const modes[] = { "WDGIF_OFF_MODE", "WDGIF_SLOW_MODE", "WDGIF_FAST_MODE" };
  Told t;
  call(&t, "Wdg_SetMode", "%s", (unsigned)mode < 3 ? modes[mode] : "INVALID");
  return ok(&t);
}
ONE(Wdg_SetTriggerCondition, uint16)
