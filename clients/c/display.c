/* A display on the serial bus: a device in C that answers each word, and what the driver reads of it. */
#include <stdio.h>

#include "Mcal.h"
#include "Spi.h"

static const char *board =
  "[Spi]\n"
  "SpiChannel = [ { SpiChannelId = 0, SpiChannelType = \"IB\", SpiDataWidth = 8, SpiIbNBuffers = 3, SpiDefaultData = 0 } ]\n"
  "SpiJob = [ { SpiJobId = 0, Unit = 0, SpiJobPriority = 0, SpiChannelList = [0] } ]\n"
  "SpiSequence = [ { SpiSequenceId = 0, SpiInterruptibleSequence = false, SpiJobAssignment = [0], SpiSeqEndNotification = \"Shown\" } ]\n";

static char shown[16];
static uint16 words;
static uint16 display(uint8 unit, uint16 sent) {
  (void)unit;
  shown[words++] = (char)sent;
  return words;
}

static int ended = -1;
static void Shown(void) { ended = (int)Spi_GetSequenceResult(0); }

int main(void) {
  if (Mcal_PowerOn(board)) {
    printf("%s\n", Mcal_Refusal);
    return 1;
  }
  Mcal_On("SpiSeqEndNotification", 0, Shown);
  Mcal_Exchange = display;
  Spi_Init(NULL_PTR);
  const Spi_DataBufferType text[3] = { 'H', 'i', '!' };
  Spi_DataBufferType back[3] = { 0 };
  (void)Spi_WriteIB(0, text);
  (void)Spi_SetAsyncMode(SPI_INTERRUPT_MODE);
  (void)Spi_AsyncTransmit(0);
  for (int turn = 0; ended < 0 && turn < 16; turn++) {
    Mcal_Tick(64);
    for (uint8 line = 0; line < 32; line++)
      if (Mcal_Pending() >> line & 1u) (void)Mcal_Interrupt(line);
  }
  Std_ReturnType read = Spi_ReadIB(0, back);
  printf("shown %s read %s %u %u %u ended %s\n", shown, read == E_OK ? "E_OK" : "E_NOT_OK", (unsigned)back[0], (unsigned)back[1], (unsigned)back[2], ended == SPI_SEQ_OK ? "SPI_SEQ_OK" : "not well");
  Mcal_PowerOff();
  return 0;
}
