//gsoap m service name: note
//gsoap m service namespace: urn:wsrm:interop
//gsoap m service encoding: literal
//gsoap m schema namespace: urn:wsrm:interop
//gsoap m schema form: unqualified
#import "wsrm.h"

//gsoap m service method-header-part: note wsa5__MessageID
//gsoap m service method-header-part: note wsa5__RelatesTo
//gsoap m service method-header-part: note wsa5__From
//gsoap m service method-header-part: note wsa5__ReplyTo
//gsoap m service method-header-part: note wsa5__FaultTo
//gsoap m service method-header-part: note wsa5__To
//gsoap m service method-header-part: note wsa5__Action
//gsoap m service method-header-part: note wsrm__Sequence
//gsoap m service method-header-part: note wsrm__AckRequested
//gsoap m service method-header-part: note wsrm__SequenceAcknowledgement
//gsoap m service method-action: note urn:wsrm:payload
int m__note(char *text, void);

//gsoap m service method-header-part: ask wsa5__MessageID
//gsoap m service method-header-part: ask wsa5__RelatesTo
//gsoap m service method-header-part: ask wsa5__From
//gsoap m service method-header-part: ask wsa5__ReplyTo
//gsoap m service method-header-part: ask wsa5__FaultTo
//gsoap m service method-header-part: ask wsa5__To
//gsoap m service method-header-part: ask wsa5__Action
//gsoap m service method-header-part: ask wsrm__Sequence
//gsoap m service method-header-part: ask wsrm__AckRequested
//gsoap m service method-header-part: ask wsrm__SequenceAcknowledgement
//gsoap m service method-action: ask urn:wsrm:interop:ask
//gsoap m service method-output-action: ask urn:wsrm:interop:answer
int m__ask(char *text, struct m__askResponse { char *text; } *answer);
