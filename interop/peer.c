/* A client and a server of WS-ReliableMessaging over gSOAP's plugin wsrm.

   peer client TO STEP ..       does one step after the other, prints what came of each, and then the sequence's
                                identifier and how many messages are not acknowledged. Steps: create, offer,
                                acks-to=ADDRESS, note=TEXT, ask=TEXT, pause=MS, resend, close, terminate, and
                                as=IDENTIFIER, from which on the sequence goes by that
   peer server PORT COUNT [WORD]  takes COUNT connections, and prints each message that it is given, in order; with a
                                third word a message is answered with one of the application's own

   It is built with VERSION 1 for SOAP 1.1, as soapcpp2 -1 is called then, and with 2 and -2 for SOAP 1.2. */
#include "soapH.h"
#include "note.nsmap"
#include "wsaapi.h"
#include "wsrmapi.h"

#define NOTE "urn:wsrm:payload"
#define ASK "urn:wsrm:interop:ask"
#define ANSWER "urn:wsrm:interop:answer"
#define ACKNOWLEDGEMENT "http://docs.oasis-open.org/ws-rx/wsrm/200702/SequenceAcknowledgement"
#define LIFE 600000

static struct soap *made(void)
{
    struct soap *soap = soap_new1(SOAP_XML_INDENT);
    soap_set_version(soap, VERSION);
    soap->connect_timeout = soap->send_timeout = soap->recv_timeout = 10;
    soap_register_plugin(soap, soap_wsa);
    soap_register_plugin(soap, soap_wsrm);
    return soap;
}

/* What came of a step. */
static void tell(struct soap *soap, const char *step)
{
    const char *text = NULL;
    if (soap->error && soap->fault) {
        const char **reason = (const char **)soap_faultstring(soap);
        text = reason ? *reason : NULL;
    }
    if (!soap->error || soap->error == 202 || soap->error == SOAP_NO_TAG)
        printf("%s ok\n", step);
    else
        printf("%s failed %d %s\n", step, soap->error, text ? text : "");
}

/* The answer to a message that goes one way: none, acknowledgements in an envelope with an empty Body, or a fault. */
static int take_answer(struct soap *soap)
{
    if (soap_begin_recv(soap)) {
        if (soap->error == SOAP_NO_DATA || soap->error == 202)
            soap->error = SOAP_OK;
        return soap_closesock(soap);
    }
    if (soap_envelope_begin_in(soap) || soap_recv_header(soap) || soap_body_begin_in(soap))
        return soap_closesock(soap);
    if (soap_recv_fault(soap, 1))
        return soap->error;
    if (soap_body_end_in(soap) || soap_envelope_end_in(soap) || soap_end_recv(soap))
        return soap_closesock(soap);
    return soap_closesock(soap);
}

static int note(struct soap *soap, soap_wsrm_sequence_handle seq, char *text)
{
    if (soap_wsrm_request_acks(soap, seq, NULL, NOTE))
        return soap->error;
    if (soap_send_m__note(soap, soap_wsrm_to(seq), NOTE, text))
        return soap->error;
    return take_answer(soap);
}

static int ask(struct soap *soap, soap_wsrm_sequence_handle seq, char *text)
{
    struct m__askResponse answer;
    if (soap_wsrm_request_acks(soap, seq, soap_wsa_rand_uuid(soap), ASK))
        return soap->error;
    if (soap_call_m__ask(soap, soap_wsrm_to(seq), ASK, text, &answer))
        return soap->error;
    printf("answered %s\n", answer.text ? answer.text : "");
    return SOAP_OK;
}

static int step(struct soap *soap, soap_wsrm_sequence_handle *seq, char *to, char *word)
{
    if (!strcmp(word, "create"))
        return soap_wsrm_create(soap, to, NULL, LIFE, soap_wsa_rand_uuid(soap), seq);
    if (!strcmp(word, "offer"))
        return soap_wsrm_create_offer(soap, to, NULL, NULL, LIFE, NoDiscard, soap_wsa_rand_uuid(soap), seq);
    if (!strncmp(word, "acks-to=", 8))
        return soap_wsrm_create_offer_acksto(soap, to, NULL, word + 8, NULL, LIFE, NoDiscard, soap_wsa_rand_uuid(soap),
            seq);
    if (!strncmp(word, "note=", 5))
        return note(soap, *seq, word + 5);
    if (!strncmp(word, "ask=", 4))
        return ask(soap, *seq, word + 4);
    if (!strncmp(word, "as=", 3) && *seq) {
        (*seq)->id = word + 3;
        return SOAP_OK;
    }
    if (!strncmp(word, "pause=", 6))
        return usleep(1000 * atoi(word + 6));
    if (!strcmp(word, "resend"))
        return soap_wsrm_resend(soap, *seq, 0, 0);
    if (!strcmp(word, "close"))
        return soap_wsrm_close(soap, *seq, soap_wsa_rand_uuid(soap));
    if (!strcmp(word, "terminate"))
        return soap_wsrm_terminate(soap, *seq, soap_wsa_rand_uuid(soap));
    fprintf(stderr, "peer: no step %s\n", word);
    exit(2);
}

/* How many messages are kept, since no acknowledgement has them: the plugin's own count has only those that a peer named
   as missing. */
static int waiting(soap_wsrm_sequence_handle seq)
{
    struct soap_wsrm_message *it;
    int count = 0;
    for (it = seq->messages; it; it = it->next)
        count++;
    return count;
}

static int client(char *to, int count, char **words)
{
    struct soap *soap = made();
    soap_wsrm_sequence_handle seq = NULL;
    int i;
    for (i = 0; i < count; i++) {
        soap->error = SOAP_OK;
        soap->error = step(soap, &seq, to, words[i]);
        tell(soap, words[i]);
        soap_closesock(soap);
    }
    if (seq) {
        printf("sequence %s\n", seq->id ? seq->id : "none");
        printf("unacknowledged %d of %llu\n", waiting(seq), (unsigned long long)soap_wsrm_num(seq));
    }
    return 0;
}

static int answers = 0;

/* The envelope of an answer: acknowledgements, and an empty Body or an element of the application's. */
static int put_answer(struct soap *soap)
{
    if (soap_envelope_begin_out(soap) || soap_putheader(soap) || soap_body_begin_out(soap))
        return soap->error;
    if (answers && soap_send(soap, "<answer xmlns=\"urn:wsrm:interop\">taken</answer>"))
        return soap->error;
    return soap_body_end_out(soap) || soap_envelope_end_out(soap);
}

static int answer(struct soap *soap)
{
    if (soap_wsrm_reply_num(soap, 0))
        return soap->error;
    soap->header->wsrm__Sequence = NULL;
    if (soap_wsa_reply(soap, NULL, answers ? ANSWER : ACKNOWLEDGEMENT))
        return soap->error;
    soap_serializeheader(soap);
    if (soap_begin_count(soap) || ((soap->mode & SOAP_IO_LENGTH) && put_answer(soap)) || soap_end_count(soap))
        return soap->error;
    if (soap_response(soap, SOAP_OK) || put_answer(soap) || soap_end_send(soap))
        return soap->error;
    return soap_closesock(soap);
}

int m__note(struct soap *soap, char *text)
{
    if (soap_wsrm_check(soap))
        return soap->error;
    printf("note %s\n", text ? text : "");
    fflush(stdout);
    return answer(soap);
}

int m__ask(struct soap *soap, char *text, struct m__askResponse *answer)
{
    if (soap_wsrm_check(soap))
        return soap->error;
    printf("ask %s\n", text ? text : "");
    fflush(stdout);
    answer->text = soap_strdup(soap, text);
    return soap_wsrm_reply(soap, NULL, ANSWER);
}

int SOAP_ENV__Fault(struct soap *soap, char *code, char *reason, char *actor, struct SOAP_ENV__Detail *detail,
    struct SOAP_ENV__Code *Code, struct SOAP_ENV__Reason *Reason, char *Node, char *Role,
    struct SOAP_ENV__Detail *Detail)
{
    printf("fault %s\n", Reason && Reason->SOAP_ENV__Text ? Reason->SOAP_ENV__Text : "");
    fflush(stdout);
    return SOAP_OK;
}

static int server(int port, int count)
{
    struct soap *soap = made();
    int i;
    soap->bind_flags = SO_REUSEADDR;
    if (!soap_valid_socket(soap_bind(soap, NULL, port, 100))) {
        soap_print_fault(soap, stderr);
        return 1;
    }
    for (i = 0; i < count; i++) {
        if (!soap_valid_socket(soap_accept(soap)))
            return 1;
        soap_serve(soap);
        soap_destroy(soap);
        soap_end(soap);
    }
    return 0;
}

int main(int count, char **words)
{
    if (count >= 4 && !strcmp(words[1], "client"))
        return client(words[2], count - 3, words + 3);
    answers = count == 5;
    if (count >= 4 && !strcmp(words[1], "server"))
        return server(atoi(words[2]), atoi(words[3]));
    fprintf(stderr, "usage: peer client TO STEP .. | peer server PORT COUNT [WORD]\n");
    return 2;
}
