// Serves the pages of site.h at 10.0.0.1, over the board's USB: python3 tools/pack.py FOLDER site.h makes it of a folder.
// Then open the page: python3 web/serve.py --line /dev/ttyACM0 115200
#include <Lowunbisa.h>
#include "site.h"

Lowunbisa node;

void setup() {
  const unsigned char address[4] = {10, 0, 0, 1};
  pinMode(LED_BUILTIN, OUTPUT);
  Serial.begin(115200);
  node.begin(Serial, site_image, SITE_IMAGE_LEN, address);
  node.set(4, "off");
}

void loop() {
  char seconds[12];
  node.poll();
  node.set(3, ultoa(millis() / 1000, seconds, 10));
  if (node.isRequested("/on.html")) { digitalWrite(LED_BUILTIN, HIGH); node.set(4, "on"); }
  if (node.isRequested("/off.html")) { digitalWrite(LED_BUILTIN, LOW); node.set(4, "off"); }
}
