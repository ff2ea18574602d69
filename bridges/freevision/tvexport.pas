{ Writes a live dialog of Free Vision as a description, which tvdlg checks, draws and plays.

  A view that has no counterpart is left out, and one of which something else is written is named too: each by a line of the
  notes, with its type and its place. }
unit tvexport;

{$mode objfpc}{$H+}

interface

uses
  Dialogs;

{ Writes the dialog to Description, open on a screen of 80 columns and 25 rows, and called Name. Returns how many of its views
  were left out. Texts are taken to be in code page 437. }
function ExportDialog(Dialog: PDialog; const Name: string; var Description, Notes: Text): Integer;

implementation

uses
  Objects, Drivers, Views, Validate, StdDlg, Editors, SysUtils;

const
  MostViews = 64;
  MostItems = 16;
  MostListed = 100;
  MostCharacters = 120;
  FirstCommand = 100;
  LastCommand = 255;

  { The characters 128 to 255 of code page 437, in UTF-8. }
  Upper: string = 'ÇüéâäàåçêëèïîìÄÅÉæÆôöòûùÿÖÜ¢£¥₧ƒáíóúñÑªº¿⌐¬½¼¡«»░▒▓│┤╡╢╖╕╣║╗╝╜╛┐└┴┬├─┼╞╟╚╔╩╦╠═╬╧╨╤╥╙╘╒╓╫╪┘┌█▄▌▐▀αßΓπΣσµτΦΘΩδ∞φε∩≡±≥≤⌠⌡÷≈°∙·√ⁿ²■ ';

type
  { What is written of a view. }
  TKind = (kdNothing, kdText, kdLabel, kdButton, kdChecks, kdRadios, kdInput, kdList, kdLeftOut);

  TNamed = record
    View: PView;
    Name: string;
  end;

  TExport = object
    Dialog: PDialog;
    Name: string;
    LeftOut: Integer;
    Named: array[1..MostViews] of TNamed;
    NamedCount: Integer;
    { The commands below or above those of a description, by the numbers that stand in for them. }
    Given: array[FirstCommand..LastCommand] of Word;
    Description, Notes: ^Text;
    procedure Note(View: PView; const What: string);
    procedure LeaveOut(View: PView; const What: string);
    function IsTaken(const Wanted: string): Boolean;
    function FreeName(const Wanted: string): string;
    procedure NameView(View: PView; const Wanted: string);
    function NameOf(View: PView): string;
    procedure NameViews;
    procedure KeepCommands;
    function NumberOf(View: PView; Command: Word): string;
    function CommandOf(View: PView; Command: Word): string;
    function Ends: string;
    procedure WriteHead;
    procedure WriteText(View: PStaticText);
    procedure WriteLabel(View: PLabel);
    procedure WriteButton(View: PButton);
    procedure WriteCluster(View: PCluster; const Kind: string);
    function DomainOf(View: PInputLine): string;
    procedure WriteInput(View: PInputLine);
    procedure WriteList(View: PListViewer);
    procedure WriteView(View: PView);
  end;

{ ---- texts }

{ A character of code page 437 in UTF-8. }
function Character(Code: Char): string;
var
  At, Left: Integer;
begin
  if Code < #128 then
    Exit(Code);
  At := 1;
  for Left := Ord(Code) - 128 downto 1 do
    repeat
      Inc(At);
    until Ord(Upper[At]) and $C0 <> $80;
  Left := At;
  repeat
    Inc(Left);
  until (Left > Length(Upper)) or (Ord(Upper[Left]) and $C0 <> $80);
  Result := Copy(Upper, At, Left - At);
end;

{ A quoted word of the first characters. Rows of a static text end with a carriage return or a line feed; other control
  characters, such as that which centers a row, are left out. }
function Quoted(const Characters: string): string;
var
  Code: Char;
  Count: Integer;
begin
  Result := '"';
  Count := 0;
  for Code in StringReplace(Characters, #13#10, #10, [rfReplaceAll]) do
    if (Count < MostCharacters) and ((Code >= ' ') and (Code <> #127) or (Code in [#10, #13])) then
    begin
      case Code of
        '"', '\': Result := Result + '\' + Code;
        #10, #13: Result := Result + '\n';
      else
        Result := Result + Character(Code);
      end;
      Inc(Count);
    end;
  Result := Result + '"';
end;

{ The place of the letter or digit that is marked: of several characters between two `~` that is the first. }
function MarkOf(const Title: string): Integer;
begin
  Result := Pos('~', Title) + 1;
  if (Result = 1) or (Result > Length(Title)) or not (Title[Result] in ['A'..'Z', 'a'..'z', '0'..'9']) then
    Result := 0;
end;

{ A quoted word in which that letter stands between two `~`, and no other `~`. }
function Marked(const Title: string): string;
var
  Mark: Integer;
begin
  Mark := MarkOf(Title);
  if Mark = 0 then
    Exit(Quoted(StringReplace(Title, '~', '', [rfReplaceAll])));
  Result := StringReplace(Copy(Title, 1, Mark - 1), '~', '', [rfReplaceAll]) + #1 + Title[Mark] + #1
    + StringReplace(Copy(Title, Mark + 1, MaxInt), '~', '', [rfReplaceAll]);
  { The mark stands for itself once the text is quoted. }
  Result := StringReplace(Result, #1, '~', [rfReplaceAll]);
  Result := Quoted(Result);
end;

{ A name of a description: the letters and digits of a title. }
function Plain(const Title: string): string;
var
  Code: Char;
begin
  Result := '';
  for Code in LowerCase(Title) do
    if (Code in ['a'..'z']) or (Result <> '') and (Code in ['0'..'9']) then
      Result := Result + Code;
  Result := Copy(Result, 1, 16);
end;

function TextOf(At: PShortString): string;
begin
  if At = nil then
    Exit('');
  Result := At^;
end;

{ ---- notes }

procedure TExport.Note(View: PView; const What: string);
begin
  WriteLn(Notes^, Format('%s: at %d %d: %s', [Name, View^.Origin.X, View^.Origin.Y, What]));
end;

procedure TExport.LeaveOut(View: PView; const What: string);
begin
  Note(View, 'left out: ' + What);
  Inc(LeftOut);
end;

{ ---- kinds }

{ The types of a program's own can't be told from their parents, so they are left out. }
function KindOf(View: PView): TKind;
var
  Own: Pointer;
begin
  Own := TypeOf(View^);
  if Own = TypeOf(TFrame) then
    Result := kdNothing
  else if (Own = TypeOf(TStaticText)) or (Own = TypeOf(TParamText)) then
    Result := kdText
  else if Own = TypeOf(TLabel) then
    Result := kdLabel
  else if Own = TypeOf(TButton) then
    Result := kdButton
  else if Own = TypeOf(TCheckBoxes) then
    Result := kdChecks
  else if Own = TypeOf(TRadioButtons) then
    Result := kdRadios
  else if (Own = TypeOf(TInputLine)) or (Own = TypeOf(TFileInputLine)) then
    Result := kdInput
  else if (Own = TypeOf(TListBox)) or (Own = TypeOf(TSortedListBox)) or (Own = TypeOf(TFileList)) or (Own = TypeOf(TDirListBox)) then
    Result := kdList
  else
    Result := kdLeftOut;
end;

{ What a view is called that is left out. }
function TypeName(View: PView): string;
var
  Own: Pointer;
begin
  Own := TypeOf(View^);
  if Own = TypeOf(TMultiCheckBoxes) then
    Result := 'TMultiCheckBoxes'
  else if Own = TypeOf(TMemo) then
    Result := 'TMemo'
  else if (Own = TypeOf(THistory)) or (Own = TypeOf(TFileHistory)) then
    Result := 'THistory'
  else if Own = TypeOf(TScrollBar) then
    Result := 'TScrollBar'
  else if Own = TypeOf(TFileInfoPane) then
    Result := 'TFileInfoPane'
  else
    Result := 'a view of another type';
end;

{ ---- names }

function TExport.IsTaken(const Wanted: string): Boolean;
var
  At: Integer;
begin
  for At := 1 to NamedCount do
    if Named[At].Name = Wanted then
      Exit(True);
  Result := False;
end;

function TExport.FreeName(const Wanted: string): string;
var
  Number: Integer;
begin
  Result := Wanted;
  Number := 1;
  while (Result = '') or IsTaken(Result) do
  begin
    Inc(Number);
    if Wanted = '' then
      Result := 'view' + IntToStr(Number)
    else
      Result := Wanted + IntToStr(Number);
  end;
end;

procedure TExport.NameView(View: PView; const Wanted: string);
begin
  if (View = nil) or (View^.Owner <> PGroup(Dialog)) or not (KindOf(View) in [kdButton..kdList]) then
    Exit;
  if (NameOf(View) <> '') or (NamedCount = MostViews) then
    Exit;
  Inc(NamedCount);
  Named[NamedCount].Name := FreeName(Wanted);
  Named[NamedCount].View := View;
end;

function TExport.NameOf(View: PView): string;
var
  At: Integer;
begin
  for At := 1 to NamedCount do
    if Named[At].View = View then
      Exit(Named[At].Name);
  Result := '';
end;

{ What a label leads to is called like it, and a button like its title. }
procedure TExport.NameViews;
var
  View: PView;
begin
  View := Dialog^.Last;
  repeat
    case KindOf(View) of
      kdLabel: NameView(PLabel(View)^.Link, Plain(TextOf(PLabel(View)^.Text)));
      kdButton: NameView(View, Plain(TextOf(PButton(View)^.Title)));
    end;
    View := View^.Prev;
  until View = Dialog^.Last;
  repeat
    NameView(View, '');
    View := View^.Prev;
  until View = Dialog^.Last;
end;

{ ---- commands }

{ The numbers that a description may have stay. }
procedure TExport.KeepCommands;
var
  View: PView;
begin
  View := Dialog^.Last;
  repeat
    if (KindOf(View) = kdButton) and (PButton(View)^.Command >= FirstCommand) and (PButton(View)^.Command <= LastCommand) then
      Given[PButton(View)^.Command] := PButton(View)^.Command;
    View := View^.Prev;
  until View = Dialog^.Last;
end;

{ Another gets a number that is free, and always the same. }
function TExport.NumberOf(View: PView; Command: Word): string;
var
  Number: Integer;
begin
  for Number := FirstCommand to LastCommand do
    if (Given[Number] = 0) or (Given[Number] = Command) then
    begin
      Given[Number] := Command;
      if Number <> Command then
        Note(View, Format('command %d is written as %d', [Command, Number]));
      Exit(IntToStr(Number));
    end;
  Result := IntToStr(LastCommand);
end;

function TExport.CommandOf(View: PView; Command: Word): string;
begin
  case Command of
    cmOK: Result := 'ok';
    cmCancel: Result := 'cancel';
    cmYes: Result := 'yes';
    cmNo: Result := 'no';
    cmClose: Result := 'close';
    cmNext: Result := 'next';
    cmMenu: Result := 'menu';
    cmQuit: Result := 'quit';
  else
    Result := NumberOf(View, Command);
  end;
end;

{ The ends that buttons give, and `cancel`, which Esc gives. }
function TExport.Ends: string;
var
  View: PView;
  Found: set of (endOK, endYes, endNo);
begin
  Found := [];
  View := Dialog^.Last;
  repeat
    if KindOf(View) = kdButton then
      case PButton(View)^.Command of
        cmOK: Include(Found, endOK);
        cmYes: Include(Found, endYes);
        cmNo: Include(Found, endNo);
      end;
    View := View^.Prev;
  until View = Dialog^.Last;
  Result := '';
  if endOK in Found then
    Result := ' ok';
  Result := Result + ' cancel';
  if endYes in Found then
    Result := Result + ' yes';
  if endNo in Found then
    Result := Result + ' no';
end;

{ ---- lines }

{ A dialog that is centered, or lies off the desktop, stands in its middle. }
procedure TExport.WriteHead;
var
  X, Y: Integer;
begin
  X := Dialog^.Origin.X;
  Y := Dialog^.Origin.Y + 1;
  if (Dialog^.Options and ofCenterX <> 0) or (X < 0) or (X + Dialog^.Size.X > 80) then
    X := (80 - Dialog^.Size.X) div 2;
  if (Dialog^.Options and ofCenterY <> 0) or (Y < 1) or (Y + Dialog^.Size.Y > 24) then
    Y := 1 + (23 - Dialog^.Size.Y) div 2;
  WriteLn(Description^, 'tvd 1');
  WriteLn(Description^, 'screen 80 25');
  WriteLn(Description^, 'start ', Name);
  WriteLn(Description^, Format('dialog %s %d %d %d %d %s ends%s', [Name, X, Y, Dialog^.Size.X, Dialog^.Size.Y,
    Quoted(TextOf(Dialog^.Title)), Ends]));
end;

procedure TExport.WriteText(View: PStaticText);
var
  Shown: ShortString;
begin
  View^.GetText(Shown);
  if Pos(#3, Shown) > 0 then
    Note(View, 'centered rows of a text are written from the left');
  WriteLn(Description^, Format('text %d %d %d %d %s', [View^.Origin.X, View^.Origin.Y, View^.Size.X, View^.Size.Y, Quoted(Shown)]));
end;

procedure TExport.WriteLabel(View: PLabel);
begin
  if NameOf(View^.Link) = '' then
  begin
    Note(View, 'a label of no control is written as a text');
    WriteLn(Description^, Format('text %d %d %d 1 %s', [View^.Origin.X, View^.Origin.Y, View^.Size.X,
      Quoted(StringReplace(TextOf(View^.Text), '~', '', [rfReplaceAll]))]));
    Exit;
  end;
  WriteLn(Description^, Format('label %d %d %d %s %s', [View^.Origin.X, View^.Origin.Y, View^.Size.X, Marked(TextOf(View^.Text)),
    NameOf(View^.Link)]));
end;

procedure TExport.WriteButton(View: PButton);
var
  Line: string;
begin
  Line := Format('button %s %d %d %d %s %s', [NameOf(View), View^.Origin.X, View^.Origin.Y, View^.Size.X,
    Marked(TextOf(View^.Title)), CommandOf(View, View^.Command)]);
  if View^.AmDefault then
    Line := Line + ' default';
  if View^.Flags and bfGrabFocus <> 0 then
    Line := Line + ' grab';
  WriteLn(Description^, Line);
end;

procedure TExport.WriteCluster(View: PCluster; const Kind: string);
var
  Line, Starts: string;
  At, Count: Integer;
begin
  Line := Format('%s %s %d %d %d', [Kind, NameOf(View), View^.Origin.X, View^.Origin.Y, View^.Size.X]);
  Starts := '';
  Count := View^.Strings.Count;
  if Count > MostItems then
  begin
    Note(View, Format('of %d items the first %d are written', [Count, MostItems]));
    Count := MostItems;
  end;
  for At := 0 to Count - 1 do
  begin
    Line := Line + ' ' + Marked(TextOf(View^.Strings.At(At)));
    if View^.Mark(At) then
      Starts := Starts + ' ' + IntToStr(At + 1);
  end;
  if Starts <> '' then
    Line := Line + ' start' + Starts;
  WriteLn(Description^, Line);
end;

function TExport.DomainOf(View: PInputLine): string;
var
  Code: Char;
  Allowed: string;
begin
  Result := 'any';
  if View^.Validator = nil then
    Exit;
  if TypeOf(View^.Validator^) = TypeOf(TPXPictureValidator) then
    Result := 'picture ' + Quoted(TextOf(PPXPictureValidator(View^.Validator)^.Pic))
  else if TypeOf(View^.Validator^) = TypeOf(TRangeValidator) then
    Result := Format('range %d %d', [PRangeValidator(View^.Validator)^.Min, PRangeValidator(View^.Validator)^.Max])
  else if TypeOf(View^.Validator^) = TypeOf(TFilterValidator) then
  begin
    Allowed := '';
    for Code := ' ' to #255 do
      if Code in PFilterValidator(View^.Validator)^.ValidChars then
        Allowed := Allowed + Code;
    if Length(Allowed) > MostCharacters then
      Note(View, Format('of %d characters of a filter the first %d are written', [Length(Allowed), MostCharacters]));
    Result := 'filter ' + Quoted(Allowed);
  end
  else
    Note(View, 'a validator of another type is written as `any`');
end;

procedure TExport.WriteInput(View: PInputLine);
var
  Line: string;
  Most: Integer;
begin
  Most := View^.MaxLen;
  if Most > MostCharacters then
  begin
    Note(View, Format('an input of %d characters is written with %d', [Most, MostCharacters]));
    Most := MostCharacters;
  end;
  Line := Format('input %s %d %d %d %d %s %s', [NameOf(View), View^.Origin.X, View^.Origin.Y, View^.Size.X, Most, DomainOf(View),
    Quoted(Copy(TextOf(View^.Data), 1, Most))]);
  if View^.Options and ofValidate <> 0 then
    Line := Line + ' validate';
  if (View^.Validator <> nil) and (View^.Validator^.Options and voFill <> 0) then
    Line := Line + ' fill';
  WriteLn(Description^, Line);
end;

procedure TExport.WriteList(View: PListViewer);
var
  Line: string;
  At, Count: Integer;
begin
  Line := Format('list %s %d %d %d %d', [NameOf(View), View^.Origin.X, View^.Origin.Y, View^.Size.X, View^.Size.Y]);
  Count := View^.Range;
  if Count = 0 then
  begin
    Note(View, 'an empty list is written with "?"');
    Line := Line + ' "?"';
  end;
  if Count > MostListed then
  begin
    Note(View, Format('of %d items of a list the first %d are written', [Count, MostListed]));
    Count := MostListed;
  end;
  for At := 0 to Count - 1 do
    Line := Line + ' ' + Quoted(View^.GetText(At, MostCharacters));
  At := View^.Focused + 1;
  if (At < 1) or (At > Count) then
    At := 1;
  WriteLn(Description^, Line, ' start ', At);
end;

procedure TExport.WriteView(View: PView);
begin
  case KindOf(View) of
    kdText: WriteText(PStaticText(View));
    kdLabel: WriteLabel(PLabel(View));
    kdButton: WriteButton(PButton(View));
    kdChecks: WriteCluster(PCluster(View), 'checks');
    kdRadios: WriteCluster(PCluster(View), 'radios');
    kdInput: WriteInput(PInputLine(View));
    kdList: WriteList(PListViewer(View));
    kdLeftOut: LeaveOut(View, TypeName(View));
  end;
end;

function ExportDialog(Dialog: PDialog; const Name: string; var Description, Notes: Text): Integer;
var
  Written: TExport;
  View: PView;
begin
  Written := Default(TExport);
  Written.Dialog := Dialog;
  Written.Name := Name;
  Written.Description := @Description;
  Written.Notes := @Notes;
  Written.NameViews;
  Written.KeepCommands;
  Written.WriteHead;
  { From the first that was inserted to the last, which is how Tab goes. }
  View := Dialog^.Last;
  repeat
    Written.WriteView(View);
    View := View^.Prev;
  until View = Dialog^.Last;
  WriteLn(Description, 'end');
  Result := Written.LeftOut;
end;

end.
