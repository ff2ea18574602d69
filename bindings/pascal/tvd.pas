{ What the program tvdlg does with files, done with texts in memory. Free Pascal; libtvd.o and the C library are linked.

  tvd.h says what the library keeps and what it asks of its caller. This unit keeps that. }
unit tvd;

{$mode objfpc}{$H+}
{$L libtvd.o}
{$linklib c}

interface

const
  TvdDone = 0;
  TvdFaulty = 1;
  TvdUsage = 2;
  TvdFailed = 3;
  TvdLeft = 4;

type
  { The status of tvdlg, and what it writes on standard output and standard error. }
  TTvdTold = record
    Status: Byte;
    Output, Messages: RawByteString;
  end;

{ Does what `tvdlg WORDS` does, where two files hold these texts. A file whose name is empty isn't there. }
function TvdTell(const Words: array of RawByteString; const Name, Text, Name2, Text2: RawByteString): TTvdTold;

function TvdCheck(const Text: RawByteString): TTvdTold;
function TvdExplain(const Text: RawByteString): TTvdTold;
function TvdAccept(const Text, Certificate: RawByteString): TTvdTold;
function TvdRun(const Text, Script: RawByteString): TTvdTold;
function TvdPicture(const Text, Script: RawByteString): TTvdTold;

type
  { What a form answers: tvd.h says when. }
  TTvdAnswer = (tfDone, tfEvent, tfRefused, tfNoMemory, tfNoRoom, tfLeft, tfOver, tfUnsound, tfRefresh);

  { A character of the screen by its number, and its colours: 4 bits of the character's, 3 of those behind it. }
  TTvdCell = packed record
    Number: array[0..2] of Byte;
    Colours: Byte;
  end;

  { A description at work, which one thread at a time uses. }
  TTvdForm = class
  private
    FRoom: Pointer;
    function Ask(Asked: LongWord; const Given: RawByteString; Room: Pointer; Size: SizeUInt; out Used: SizeUInt): TTvdAnswer;
    function Act(Asked: LongWord; const Given: RawByteString): TTvdAnswer;
    function Look(Asked: LongWord; const Given: RawByteString; out Text: RawByteString): TTvdAnswer;
  public
    { Opens a description. Where it isn't sound each call answers so. }
    constructor Create(const Text: RawByteString);
    destructor Destroy; override;
    function Status: TTvdAnswer;
    { Takes bytes of a terminal, up to the first with which something is done. }
    function Bytes(const Sent: RawByteString; out Taken: SizeUInt): TTvdAnswer;
    { Takes notice that for a tenth of a second no byte came. }
    function Pause: TTvdAnswer;
    { Performs the one event of a script's line. }
    function Line(const Text: RawByteString): TTvdAnswer;
    function Command(Number: Byte): TTvdAnswer;
    { The log of the last event, or of the start. }
    function Log: RawByteString;
    { The cells of the screen, row by row: TTvdCell. }
    function Screen: RawByteString;
    procedure Shape(out Columns, Rows: Byte);
    function Focus: RawByteString;
    { The fields with which a dialog opens next, as they are logged at an end. False where no dialog has the name. }
    function Fields(const Dialog: RawByteString; out Text: RawByteString): Boolean;
  end;

implementation

uses
  SysUtils;

function tvd_size: SizeUInt; cdecl; external name 'tvd_size';
procedure tvd_open(At, Text: Pointer; Size: SizeUInt); cdecl; external name 'tvd_open';
function tvd_do(At: Pointer; Asked: LongWord; Input: Pointer; InputSize: SizeUInt; Room: Pointer; RoomSize: SizeUInt;
  out Used: SizeUInt): Byte; cdecl; external name 'tvd_do';
procedure tvd_close(At: Pointer); cdecl; external name 'tvd_close';
function c_malloc(Size: SizeUInt): Pointer; cdecl; external name 'malloc';
procedure c_free(At: Pointer); cdecl; external name 'free';

const
  tvStatus = 0;
  tvBytes = 1;
  tvPause = 2;
  tvLine = 3;
  tvCommand = 4;
  tvLog = 5;
  tvScreen = 6;
  tvShape = 7;
  tvFocus = 8;
  tvRecord = 9;

constructor TTvdForm.Create(const Text: RawByteString);
begin
  FRoom := c_malloc(tvd_size);
  if FRoom = nil then
    OutOfMemoryError;
  tvd_open(FRoom, PAnsiChar(Text), Length(Text));
end;

destructor TTvdForm.Destroy;
begin
  if FRoom <> nil then
  begin
    tvd_close(FRoom);
    c_free(FRoom);
  end;
  inherited;
end;

function TTvdForm.Ask(Asked: LongWord; const Given: RawByteString; Room: Pointer; Size: SizeUInt; out Used: SizeUInt): TTvdAnswer;
begin
  Result := TTvdAnswer(tvd_do(FRoom, Asked, PAnsiChar(Given), Length(Given), Room, Size, Used));
end;

function TTvdForm.Act(Asked: LongWord; const Given: RawByteString): TTvdAnswer;
var
  None: Byte;
  Used: SizeUInt;
begin
  Result := Ask(Asked, Given, @None, 0, Used);
end;

function TTvdForm.Look(Asked: LongWord; const Given: RawByteString; out Text: RawByteString): TTvdAnswer;
var
  Used: SizeUInt;
begin
  Used := 4096;
  repeat
    SetLength(Text, Used);
    Result := Ask(Asked, Given, PAnsiChar(Text), Length(Text), Used);
  until Result <> tfNoRoom;
  SetLength(Text, Used);
end;

function TTvdForm.Status: TTvdAnswer;
begin
  Result := Act(tvStatus, '');
end;

function TTvdForm.Bytes(const Sent: RawByteString; out Taken: SizeUInt): TTvdAnswer;
var
  None: Byte;
begin
  Result := Ask(tvBytes, Sent, @None, 0, Taken);
end;

function TTvdForm.Pause: TTvdAnswer;
begin
  Result := Act(tvPause, '');
end;

function TTvdForm.Line(const Text: RawByteString): TTvdAnswer;
begin
  Result := Act(tvLine, Text);
end;

function TTvdForm.Command(Number: Byte): TTvdAnswer;
begin
  Result := Act(tvCommand, Chr(Number));
end;

function TTvdForm.Log: RawByteString;
begin
  Look(tvLog, '', Result);
end;

function TTvdForm.Screen: RawByteString;
begin
  Look(tvScreen, '', Result);
end;

procedure TTvdForm.Shape(out Columns, Rows: Byte);
var
  Text: RawByteString;
begin
  if Look(tvShape, '', Text) <> tfDone then
    Text := #0#0;
  Columns := Ord(Text[1]);
  Rows := Ord(Text[2]);
end;

function TTvdForm.Focus: RawByteString;
begin
  Look(tvFocus, '', Result);
end;

function TTvdForm.Fields(const Dialog: RawByteString; out Text: RawByteString): Boolean;
begin
  Result := Look(tvRecord, Dialog, Text) = tfDone;
end;

function tvd_tell_c(Words: Pointer; WordsSize: SizeUInt; Name: Pointer; NameSize: SizeUInt; Text: Pointer;
  TextSize: SizeUInt; Name2: Pointer; Name2Size: SizeUInt; Text2: Pointer; Text2Size: SizeUInt; Output: Pointer;
  OutputSize: SizeUInt; out OutputUsed: SizeUInt; Messages: Pointer; MessagesSize: SizeUInt;
  out MessagesUsed: SizeUInt): Byte; cdecl; external name 'tvd_tell';

function TvdTell(const Words: array of RawByteString; const Name, Text, Name2, Text2: RawByteString): TTvdTold;
var
  Line, Word: RawByteString;
  OutputUsed, MessagesUsed: SizeUInt;
begin
  Line := '';
  for Word in Words do
    Line := Line + Word + #0;
  Result := Default(TTvdTold);
  OutputUsed := 4096;
  MessagesUsed := 4096;
  repeat
    SetLength(Result.Output, OutputUsed);
    SetLength(Result.Messages, MessagesUsed);
    { PAnsiChar of an empty string points to its NUL, and is not nil. }
    Result.Status := tvd_tell_c(PAnsiChar(Line), Length(Line), PAnsiChar(Name), Length(Name), PAnsiChar(Text),
      Length(Text), PAnsiChar(Name2), Length(Name2), PAnsiChar(Text2), Length(Text2), PAnsiChar(Result.Output),
      Length(Result.Output), OutputUsed, PAnsiChar(Result.Messages), Length(Result.Messages), MessagesUsed);
  until (OutputUsed <= SizeUInt(Length(Result.Output))) and (MessagesUsed <= SizeUInt(Length(Result.Messages)));
  SetLength(Result.Output, OutputUsed);
  SetLength(Result.Messages, MessagesUsed);
end;

function TvdCheck(const Text: RawByteString): TTvdTold;
begin
  Result := TvdTell(['check', 'form'], 'form', Text, '', '');
end;

function TvdExplain(const Text: RawByteString): TTvdTold;
begin
  Result := TvdTell(['explain', 'form'], 'form', Text, '', '');
end;

function TvdAccept(const Text, Certificate: RawByteString): TTvdTold;
begin
  Result := TvdTell(['accept', 'form', 'certificate'], 'form', Text, 'certificate', Certificate);
end;

function TvdRun(const Text, Script: RawByteString): TTvdTold;
begin
  Result := TvdTell(['run', 'form', 'script'], 'form', Text, 'script', Script);
end;

function TvdPicture(const Text, Script: RawByteString): TTvdTold;
begin
  Result := TvdTell(['picture', 'form', 'script'], 'form', Text, 'script', Script);
end;

end.
