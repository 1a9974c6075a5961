// Reads JSON lines with cJSON, takes the members that a request has, and answers each by the text of the first argument, put before the
// next line is read: what `farm batch` does, without a desk.
#include <cjson/cJSON.h>
#include <stdio.h>
#include <stdlib.h>
#include <string.h>
#include <unistd.h>

static double number_at(const cJSON *object, const char *name) {
  const cJSON *member = cJSON_GetObjectItemCaseSensitive(object, name);
  return cJSON_IsNumber(member) ? member->valuedouble : -1;
}

static int is_request(const cJSON *object) {
  const cJSON *word = cJSON_GetObjectItemCaseSensitive(object, "do");
  if (!cJSON_IsString(word) || number_at(object, "account") < 1 || number_at(object, "key") < 0 || number_at(object, "tank") < 0) return 0;
  if (strcmp(word->valuestring, "gauge") == 0)
    return number_at(object, "level") >= 0 && number_at(object, "water") >= 0 && number_at(object, "temperature") >= 0 &&
           number_at(object, "ambient") >= 0;
  if (strcmp(word->valuestring, "sample") == 0) return number_at(object, "density") >= 0 && number_at(object, "sw") >= 0;
  return 0;
}

int main(int count, char **words) {
  char *line = NULL;
  size_t room = 0;
  ssize_t length;
  char answer[128], bad[] = "{\"error\":400}\n";
  if (count < 2) return 1;
  size_t answer_length = (size_t)snprintf(answer, sizeof answer, "%s\n", words[1]);
  while ((length = getline(&line, &room, stdin)) > 0) {
    cJSON *object = cJSON_ParseWithLength(line, (size_t)length);
    int good = object && is_request(object);
    cJSON_Delete(object);
    if (write(1, good ? answer : bad, good ? answer_length : sizeof bad - 1) < 0) return 1;
  }
  free(line);
  return 0;
}
