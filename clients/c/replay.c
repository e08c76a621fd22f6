/* Makes the directives of a bench file on standard input by the client, and prints the report that they make: a test of the
   client. The status is 9 where the file has what no C program can ask for, as a channel above 255. */
#include <setjmp.h>
#include <stdio.h>
#include <stdlib.h>
#include <string.h>

#include "Adc.h"
#include "Dio.h"
#include "Gpt.h"
#include "Icu.h"
#include "Mcal.h"
#include "Mcu.h"
#include "Port.h"
#include "Pwm.h"
#include "Spi.h"
#include "Wdg.h"

static unsigned line_number;
static boolean told, was_held;
static jmp_buf next_directive;

/* ---- what is told */

/* Which buffer of the file's is the first one that was accepted for a group: the client calls that one 0. */
static struct { boolean known; unsigned number; } first_buffer[16];

static void tell(const char *row) {
  unsigned group, buffer;
  if (!strcmp(row, "ok")) return;
  told = TRUE;
  if (sscanf(row, "adc %u %u:", &group, &buffer) == 2) printf("%u adc %u %u%s\n", line_number, group, buffer ^ first_buffer[group & 15u].number, strchr(row, ':'));
  else printf("%u %s\n", line_number, row);
}
static void tell_held(const char *service, const char *cause) {
  (void)service;
  printf("%u held %s\n", line_number, cause);
  told = was_held = TRUE;
}
static void tell_error(const char *service, const char *error, uint8 value, boolean runtime) {
  printf("%u %s %s %s\n", line_number, runtime ? "runtime" : "error", service, error);
  told = TRUE;
  if (!value) exit(8);
}
static void tell_notice(const char *kind, uint32 number) {
  printf("%u note %s %u\n", line_number, kind, (unsigned)number);
  told = TRUE;
}
static void forget_sources(void);
static void tell_reset(const char *reason, uint32 dropped) {
  forget_sources();
  printf("%u reset %s %u\n", line_number, reason, (unsigned)dropped);
  longjmp(next_directive, 1);
}

/* ---- arguments */

static char *words[70];
static unsigned count;

static unsigned long number(unsigned at, unsigned long most) {
  char *word = at < count ? words[at] : "";
  unsigned long value = strtoul(word, NULL, word[0] == '0' && word[1] == 'x' ? 16 : 10);
  if (value > most) exit(9);
  return value;
}
#define BYTE(at) (uint8)number(at, 0xFF)
#define HALF(at) (uint16)number(at, 0xFFFF)
#define LONG(at) (uint32)number(at, 0xFFFFFFFF)

/* The place of a word among names, the last of which is NULL; of another word the place behind them. */
static unsigned named(unsigned at, const char *const *names) {
  unsigned place = 0;
  while (names[place] && strcmp(names[place], words[at])) place++;
  return place;
}
#define NAMES(...) ((const char *const[]){__VA_ARGS__, NULL})

/* ---- the users' arrays */

#define PLACES 2048u
static Adc_ValueGroupType results[16][2][PLACES], values[PLACES];
static Icu_ValueType stamps[8][64];
static Spi_DataBufferType sources[16][64], destinations[16][64], received[64];
static unsigned source_words[16];

/* A file's arrays are the chip's, which a reset clears. */
static void forget_sources(void) { memset(sources, 0, sizeof sources); }

static void take_source(const char *row) {
  unsigned channel;
  char side[8];
  if (sscanf(row, "spi %u %7s", &channel, side) != 2 || strcmp(side, "src:") || channel > 15) return;
  source_words[channel] = 0;
  for (const char *at = strchr(row, ':') + 1; *at; at++)
    if (*at == ' ') source_words[channel]++;
}

/* ---- answers */

#define DONE(call, name) { call; if (!was_held) tell("return " name); }
#define VALUE(call, name) { unsigned long v = (unsigned long)(call); if (!was_held) printf("%u return %s %lu\n", line_number, name, v), told = TRUE; }
#define ENUM(call, name, ...) { unsigned v = (unsigned)(call); if (!was_held) printf("%u return %s %s\n", line_number, name, NAMES(__VA_ARGS__)[v]), told = TRUE; }
#define STD(call, name) ENUM(call, name, "E_OK", "E_NOT_OK")
#define STATUS(call, name) ENUM(call, name, "SPI_UNINIT", "SPI_IDLE", "SPI_BUSY")
#define LEVEL(call, name) ENUM(call, name, "STD_LOW", "STD_HIGH")

static void setup_buffer(void) {
  unsigned group = HALF(3) & 15u, buffer = strcmp(words[4], "null") ? (unsigned)number(4, 1) : 0;
  Std_ReturnType set = Adc_SetupResultBuffer(HALF(3), strcmp(words[4], "null") ? results[group][buffer] : NULL);
  if (set == E_OK && !first_buffer[group].known) first_buffer[group].number = buffer, first_buffer[group].known = TRUE;
  STD(set, "Adc_SetupResultBuffer")
}
static void read_group(void) {
  for (unsigned place = 0; place < PLACES; place++) values[place] = 0xFFFF;
  Std_ReturnType read = Adc_ReadGroup(HALF(3), values);
  if (was_held) return;
  printf("%u return Adc_ReadGroup %s", line_number, read == E_OK ? "E_OK" : "E_NOT_OK");
  for (unsigned place = 0; read == E_OK && values[place] != 0xFFFF; place++) printf(" %u", (unsigned)values[place]);
  printf("\n");
  told = TRUE;
}
static void read_stream(void) {
  Adc_ValueGroupType *sample = NULL;
  Adc_GroupType group = HALF(3);
  unsigned samples = Adc_GetStreamLastPointer(group, &sample);
  if (was_held) return;
  if (sample) printf("%u return Adc_GetStreamLastPointer %u %u\n", line_number, samples, (unsigned)((sample - results[group & 15u][0]) % (long)PLACES));
  else printf("%u return Adc_GetStreamLastPointer %u null\n", line_number, samples);
  told = TRUE;
}
static void read_internal(void) {
  Spi_ChannelType channel = BYTE(3);
  Std_ReturnType read = Spi_ReadIB(channel, received);
  if (was_held) return;
  printf("%u return Spi_ReadIB %s", line_number, read == E_OK ? "E_OK" : "E_NOT_OK");
  for (unsigned place = 0; read == E_OK && place < source_words[channel & 15u]; place++) printf(" %u", (unsigned)received[place]);
  printf("\n");
  told = TRUE;
}
static void read_duty(void) {
  Icu_DutyCycleType duty;
  Icu_GetDutyCycleValues(BYTE(3), &duty);
  if (!was_held) printf("%u return Icu_GetDutyCycleValues %u %u\n", line_number, (unsigned)duty.ActiveTime, (unsigned)duty.PeriodTime), told = TRUE;
}

/* ---- the services */

#define SERVICE(name, ...) if (!strcmp(words[2], #name)) __VA_ARGS__ else
#define PLAIN(name, argument) SERVICE(name, DONE(name(argument), #name))
#define BARE(name) SERVICE(name, DONE(name(), #name))
#define INIT(name) PLAIN(name, NULL_PTR)

static void call_timers(void) {
  INIT(Gpt_Init) BARE(Gpt_DeInit) PLAIN(Gpt_StopTimer, BYTE(3)) PLAIN(Gpt_EnableNotification, BYTE(3))
  PLAIN(Gpt_DisableNotification, BYTE(3)) PLAIN(Gpt_EnableWakeup, BYTE(3)) PLAIN(Gpt_DisableWakeup, BYTE(3)) PLAIN(Gpt_CheckWakeup, LONG(3))
  SERVICE(Gpt_GetTimeElapsed, VALUE(Gpt_GetTimeElapsed(BYTE(3)), "Gpt_GetTimeElapsed"))
  SERVICE(Gpt_GetTimeRemaining, VALUE(Gpt_GetTimeRemaining(BYTE(3)), "Gpt_GetTimeRemaining"))
  SERVICE(Gpt_StartTimer, DONE(Gpt_StartTimer(BYTE(3), LONG(4)), "Gpt_StartTimer"))
  SERVICE(Gpt_SetMode, DONE(Gpt_SetMode((Gpt_ModeType)named(3, NAMES("GPT_MODE_NORMAL", "GPT_MODE_SLEEP"))), "Gpt_SetMode")) exit(9);
}
static void call_clock_and_pins(void) {
  INIT(Mcu_Init) BARE(Mcu_PerformReset) PLAIN(Mcu_SetMode, BYTE(3)) INIT(Port_Init) BARE(Port_RefreshPortDirection)
  SERVICE(Mcu_InitRamSection, STD(Mcu_InitRamSection(BYTE(3)), "Mcu_InitRamSection"))
  SERVICE(Mcu_InitClock, STD(Mcu_InitClock(BYTE(3)), "Mcu_InitClock"))
  SERVICE(Mcu_DistributePllClock, STD(Mcu_DistributePllClock(), "Mcu_DistributePllClock"))
  SERVICE(Mcu_GetPllStatus, ENUM(Mcu_GetPllStatus(), "Mcu_GetPllStatus", "MCU_PLL_LOCKED", "MCU_PLL_UNLOCKED", "MCU_PLL_STATUS_UNDEFINED"))
  SERVICE(Mcu_GetResetReason, ENUM(Mcu_GetResetReason(), "Mcu_GetResetReason", "MCU_POWER_ON_RESET", "MCU_WATCHDOG_RESET", "MCU_SW_RESET", "MCU_RESET_UNDEFINED"))
  SERVICE(Port_SetPinDirection, DONE(Port_SetPinDirection(BYTE(3), (Port_PinDirectionType)named(4, NAMES("PORT_PIN_IN", "PORT_PIN_OUT"))), "Port_SetPinDirection"))
  SERVICE(Port_SetPinMode, DONE(Port_SetPinMode(BYTE(3), (uint8)named(4, NAMES("PORT_PIN_MODE_ADC", "PORT_PIN_MODE_DIO", "PORT_PIN_MODE_ICU", "PORT_PIN_MODE_PWM", "PORT_PIN_MODE_SPI"))), "Port_SetPinMode")) exit(9);
}
static void call_pulses(void) {
  INIT(Pwm_Init) BARE(Pwm_DeInit) PLAIN(Pwm_SetOutputToIdle, BYTE(3)) PLAIN(Pwm_DisableNotification, BYTE(3))
  SERVICE(Pwm_SetDutyCycle, DONE(Pwm_SetDutyCycle(BYTE(3), HALF(4)), "Pwm_SetDutyCycle"))
  SERVICE(Pwm_SetPeriodAndDuty, DONE(Pwm_SetPeriodAndDuty(BYTE(3), HALF(4), HALF(5)), "Pwm_SetPeriodAndDuty"))
  SERVICE(Pwm_GetOutputState, ENUM(Pwm_GetOutputState(BYTE(3)), "Pwm_GetOutputState", "PWM_LOW", "PWM_HIGH"))
  SERVICE(Pwm_EnableNotification, DONE(Pwm_EnableNotification(BYTE(3), (Pwm_EdgeNotificationType)named(4, NAMES("PWM_RISING_EDGE", "PWM_FALLING_EDGE", "PWM_BOTH_EDGES"))), "Pwm_EnableNotification")) exit(9);
}
static void call_captures(void) {
  INIT(Icu_Init) BARE(Icu_DeInit) PLAIN(Icu_EnableNotification, BYTE(3)) PLAIN(Icu_DisableNotification, BYTE(3)) PLAIN(Icu_EnableEdgeDetection, BYTE(3))
  PLAIN(Icu_DisableEdgeDetection, BYTE(3)) PLAIN(Icu_ResetEdgeCount, BYTE(3)) PLAIN(Icu_EnableEdgeCount, BYTE(3)) PLAIN(Icu_DisableEdgeCount, BYTE(3))
  PLAIN(Icu_StopTimestamp, BYTE(3)) PLAIN(Icu_StartSignalMeasurement, BYTE(3)) PLAIN(Icu_StopSignalMeasurement, BYTE(3))
  SERVICE(Icu_SetActivationCondition, DONE(Icu_SetActivationCondition(BYTE(3), (Icu_ActivationType)named(4, NAMES("ICU_RISING_EDGE", "ICU_FALLING_EDGE", "ICU_BOTH_EDGES"))), "Icu_SetActivationCondition"))
  SERVICE(Icu_GetInputState, ENUM(Icu_GetInputState(BYTE(3)), "Icu_GetInputState", "ICU_ACTIVE", "ICU_IDLE"))
  SERVICE(Icu_GetEdgeNumbers, VALUE(Icu_GetEdgeNumbers(BYTE(3)), "Icu_GetEdgeNumbers"))
  SERVICE(Icu_StartTimestamp, DONE(Icu_StartTimestamp(BYTE(3), stamps[BYTE(3) & 7u], HALF(4), HALF(5)), "Icu_StartTimestamp"))
  SERVICE(Icu_GetTimestampIndex, VALUE(Icu_GetTimestampIndex(BYTE(3)), "Icu_GetTimestampIndex"))
  SERVICE(Icu_GetTimeElapsed, VALUE(Icu_GetTimeElapsed(BYTE(3)), "Icu_GetTimeElapsed"))
  SERVICE(Icu_GetDutyCycleValues, read_duty();) exit(9);
}
static void call_converters(void) {
  INIT(Adc_Init) BARE(Adc_DeInit) PLAIN(Adc_StartGroupConversion, HALF(3)) PLAIN(Adc_StopGroupConversion, HALF(3)) PLAIN(Adc_EnableHardwareTrigger, HALF(3))
  PLAIN(Adc_DisableHardwareTrigger, HALF(3)) PLAIN(Adc_EnableGroupNotification, HALF(3)) PLAIN(Adc_DisableGroupNotification, HALF(3))
  SERVICE(Adc_SetupResultBuffer, setup_buffer();)
  SERVICE(Adc_ReadGroup, read_group();)
  SERVICE(Adc_GetGroupStatus, ENUM(Adc_GetGroupStatus(HALF(3)), "Adc_GetGroupStatus", "ADC_IDLE", "ADC_BUSY", "ADC_COMPLETED", "ADC_STREAM_COMPLETED"))
  SERVICE(Adc_GetStreamLastPointer, read_stream();) exit(9);
}
static void call_serial(void) {
  uint8 channel = 3 < count ? (uint8)(number(3, 0xFFFF) & 15u) : 0;
  INIT(Spi_Init) PLAIN(Spi_Cancel, BYTE(3)) BARE(Spi_MainFunction_Handling)
  SERVICE(Spi_DeInit, STD(Spi_DeInit(), "Spi_DeInit"))
  SERVICE(Spi_WriteIB, STD(Spi_WriteIB(BYTE(3), strcmp(words[4], "src") ? NULL_PTR : sources[channel]), "Spi_WriteIB"))
  SERVICE(Spi_ReadIB, read_internal();)
  SERVICE(Spi_SetupEB, STD(Spi_SetupEB(BYTE(3), strcmp(words[4], "src") ? NULL_PTR : sources[channel], strcmp(words[5], "dst") ? NULL_PTR : destinations[channel], HALF(6)), "Spi_SetupEB"))
  SERVICE(Spi_AsyncTransmit, STD(Spi_AsyncTransmit(BYTE(3)), "Spi_AsyncTransmit"))
  SERVICE(Spi_SyncTransmit, STD(Spi_SyncTransmit(BYTE(3)), "Spi_SyncTransmit"))
  SERVICE(Spi_GetStatus, STATUS(Spi_GetStatus(), "Spi_GetStatus"))
  SERVICE(Spi_GetJobResult, ENUM(Spi_GetJobResult(HALF(3)), "Spi_GetJobResult", "SPI_JOB_OK", "SPI_JOB_PENDING", "SPI_JOB_FAILED", "SPI_JOB_QUEUED"))
  SERVICE(Spi_GetSequenceResult, ENUM(Spi_GetSequenceResult(BYTE(3)), "Spi_GetSequenceResult", "SPI_SEQ_OK", "SPI_SEQ_PENDING", "SPI_SEQ_FAILED", "SPI_SEQ_CANCELED"))
  SERVICE(Spi_GetHWUnitStatus, STATUS(Spi_GetHWUnitStatus(BYTE(3)), "Spi_GetHWUnitStatus"))
  SERVICE(Spi_SetAsyncMode, STD(Spi_SetAsyncMode((Spi_AsyncModeType)named(3, NAMES("SPI_POLLING_MODE", "SPI_INTERRUPT_MODE"))), "Spi_SetAsyncMode")) exit(9);
}
static void call_ports(void) {
  Dio_ChannelGroupType group = { BYTE(3) };
  SERVICE(Dio_ReadChannel, LEVEL(Dio_ReadChannel(BYTE(3)), "Dio_ReadChannel"))
  SERVICE(Dio_FlipChannel, LEVEL(Dio_FlipChannel(BYTE(3)), "Dio_FlipChannel"))
  SERVICE(Dio_WriteChannel, DONE(Dio_WriteChannel(BYTE(3), (Dio_LevelType)named(4, NAMES("STD_LOW", "STD_HIGH"))), "Dio_WriteChannel"))
  SERVICE(Dio_ReadPort, VALUE(Dio_ReadPort(BYTE(3)), "Dio_ReadPort"))
  SERVICE(Dio_WritePort, DONE(Dio_WritePort(BYTE(3), BYTE(4)), "Dio_WritePort"))
  SERVICE(Dio_ReadChannelGroup, VALUE(Dio_ReadChannelGroup(&group), "Dio_ReadChannelGroup"))
  SERVICE(Dio_WriteChannelGroup, DONE(Dio_WriteChannelGroup(&group, BYTE(4)), "Dio_WriteChannelGroup")) exit(9);
}
static void call_watchdog(void) {
  INIT(Wdg_Init) PLAIN(Wdg_SetTriggerCondition, HALF(3))
  SERVICE(Wdg_SetMode, STD(Wdg_SetMode((WdgIf_ModeType)named(3, NAMES("WDGIF_OFF_MODE", "WDGIF_SLOW_MODE", "WDGIF_FAST_MODE"))), "Wdg_SetMode")) exit(9);
}
static void call(void) {
  Mcal_Level = BYTE(1);
  switch (words[2][0]) {
    case 'G': call_timers(); break;
    case 'M': call_clock_and_pins(); break;
    case 'I': call_captures(); break;
    case 'A': call_converters(); break;
    case 'S': call_serial(); break;
    case 'D': call_ports(); break;
    case 'W': call_watchdog(); break;
    default: if (words[2][1] == 'w') call_pulses(); else call_clock_and_pins();
  }
  Mcal_Level = 0;
}

/* ---- directives */

static void serve(void) {
  uint8 line = BYTE(1);
  const char *cause = Mcal_Interrupt(line);
  if (cause) tell_held("", cause);
  else printf("%u left %u\n", line_number, (unsigned)line), told = TRUE;
}

/* Stores words in the array of C too, where the chip's took them. */
static void fill(const char *line) {
  Mcal_Line(line, tell);
  uint32 channel = LONG(1);
  for (unsigned place = 0; !told && channel < 16 && place + 2 < count && place < source_words[channel]; place++)
    sources[channel][place] = (Spi_DataBufferType)number(place + 2, 0xFFFFFFFF);
}

static void obey(const char *line) {
  const char *kind = words[0];
  if (!strcmp(kind, "do")) call();
  else if (!strcmp(kind, "serve")) serve();
  else if (!strcmp(kind, "fill")) fill(line);
  else if (!strcmp(kind, "tick")) Mcal_Tick(LONG(1));
  else if (!strcmp(kind, "level")) Mcal_SetLevel(BYTE(1), BYTE(2));
  else if (!strcmp(kind, "analog")) Mcal_SetAnalog(BYTE(1), HALF(2));
  else if (!strcmp(kind, "trigger")) Mcal_Trigger(BYTE(1));
  else if (!strcmp(kind, "spifault")) Mcal_SpiFault(BYTE(1));
  else if (!strcmp(kind, "reset")) forget_sources(), Mcal_Line(line, tell);
  else if (count > 2 && !strcmp(words[2], "Adc_SetupResultBuffer")) exit(9); /* begun without the client, which numbers the buffers */
  else Mcal_Line(line, tell);
}

static void replay(char *script) {
  for (char *line = script; line; ) {
    char *end = strchr(line, '\n'), text[1024];
    if (end) *end = 0;
    line_number++;
    line[strcspn(line, "#\r")] = 0;
    if (strlen(line) >= sizeof text) exit(9);
    strcpy(text, line);
    count = 0;
    for (char *word = strtok(line, " \t"); word && count < 70; word = strtok(NULL, " \t")) words[count++] = word;
    told = was_held = FALSE;
    if (count && !setjmp(next_directive)) {
      obey(text);
      if (!told) printf("%u ok\n", line_number);
    }
    Mcal_Level = 0;
    line = end ? end + 1 : NULL;
  }
}

int main(void) {
  static char file[1 << 20];
  size_t read = fread(file, 1, sizeof file - 1, stdin);
  char *separator = strncmp(file, "---\n", 4) ? strstr(file, "\n---\n") : file - 1;
  if (!separator || strlen(file) < read) return 9;
  char *script = separator + 5;
  separator[1] = 0;
  if (Mcal_PowerOn(file)) {
    printf("%s\n", Mcal_Refusal);
    return 6;
  }
  Mcal_OnHeld = tell_held;
  Mcal_OnError = tell_error;
  Mcal_OnNotice = tell_notice;
  Mcal_OnReset = tell_reset;
  Mcal_Line("show buffers", take_source);
  replay(script);
  Mcal_PowerOff();
  return 0;
}
