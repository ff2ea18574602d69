{ Writes Free Vision's own dialogs, and one made for the test, as descriptions in the current folder: for tools/freevision. Ends
  with status 1 where a view was left out. }
program tryexport;

{$mode objfpc}{$H-}

uses
  Objects, Drivers, Views, Dialogs, Validate, StdDlg, Editors, tvexport;

var
  LeftOut: Integer = 0;

procedure Write(const Name: string; Dialog: PDialog);
var
  Description: Text;
begin
  Assign(Description, Name + '.tvd');
  Rewrite(Description);
  LeftOut := LeftOut + ExportDialog(Dialog, Name, Description, Output);
  Close(Description);
end;

{ All that has a counterpart, with a letter that is marked twice: D of Delete and of Destination. }
function Order: PDialog;
var
  Bounds: TRect;
  Input: PInputLine;
  Listed: PListBox;
  Names: PStringCollection;
  Made: PDialog;

  procedure Place(X, Y, Width, Height: Integer);
  begin
    Bounds.Assign(X, Y, X + Width, Y + Height);
  end;

  procedure Named(X, Y, Width: Integer; const Title: string; View: PView);
  begin
    Place(X, Y, Width, 1);
    Made^.Insert(New(PLabel, Init(Bounds, Title, View)));
  end;

  function Line(X, Y, Width, Most: Integer; Validator: PValidator; const Text: string): PInputLine;
  begin
    Place(X, Y, Width, 1);
    Result := New(PInputLine, Init(Bounds, Most));
    Result^.Data^ := Text;
    Result^.SetValidator(Validator);
    Made^.Insert(Result);
  end;

begin
  Place(0, 0, 60, 20);
  Made := New(PDialog, Init(Bounds, 'An "order" \ of books'));
  Made^.Options := Made^.Options or ofCentered;
  Place(2, 1, 40, 2);
  Made^.Insert(New(PStaticText, Init(Bounds, 'Caf'#130' au lait'#13#3'centered')));
  Input := Line(16, 3, 20, 12, New(PPXPictureValidator, Init('##/##', True)), '');
  Named(2, 3, 12, '~D~estination', Input);
  Input := Line(16, 4, 20, 3, New(PRangeValidator, Init(1, 500)), '7');
  Input^.Options := Input^.Options or ofValidate;
  Named(2, 4, 12, '~P~ieces', Input);
  Input := Line(16, 5, 20, 200, New(PFilterValidator, Init(['0'..'9', '"'])), '12');
  Named(2, 5, 12, '~N~umber', Input);
  Place(2, 7, 20, 3);
  Made^.Insert(New(PCheckBoxes, Init(Bounds, NewSItem('~G~ift', NewSItem('~Ex~press', NewSItem('Plain', nil))))));
  PCluster(Made^.Current)^.Value := 5;
  Place(30, 7, 20, 2);
  Made^.Insert(New(PRadioButtons, Init(Bounds, NewSItem('~S~mall', NewSItem('~L~arge', nil)))));
  Place(2, 11, 20, 3);
  Listed := New(PListBox, Init(Bounds, 1, nil));
  Names := New(PStringCollection, Init(2, 2));
  Names^.Insert(NewStr('one'));
  Names^.Insert(NewStr('two'));
  Listed^.NewList(Names);
  Made^.Insert(Listed);
  Named(2, 10, 12, '~B~ooks', Listed);
  Place(30, 11, 20, 2);
  Made^.Insert(New(PMultiCheckBoxes, Init(Bounds, NewSItem('~M~any', nil), 3, cfTwoBits, ' 12')));
  Place(2, 16, 10, 2);
  Made^.Insert(New(PButton, Init(Bounds, 'O~K~', cmOK, bfDefault)));
  Place(14, 16, 12, 2);
  Made^.Insert(New(PButton, Init(Bounds, '~D~elete', 1000, bfGrabFocus)));
  Place(28, 16, 12, 2);
  Made^.Insert(New(PButton, Init(Bounds, 'Help', 100, bfNormal)));
  Result := Made;
end;

begin
  Write('find', CreateFindDialog);
  Write('replace', CreateReplaceDialog);
  Write('jump', JumpLineDialog);
  Write('reform', ReformDocDialog);
  Write('margin', RightMarginDialog);
  Write('tabs', TabStopDialog);
  Write('file', New(PFileDialog, Init('*.pas', 'Open a File', '~N~ame', fdOpenButton or fdHelpButton or fdNoLoadDir, 1)));
  Write('folder', New(PChDirDialog, Init(cdHelpButton or cdNoLoadDir, 1)));
  Write('order', Order);
  Halt(Ord(LeftOut > 0));
end.
