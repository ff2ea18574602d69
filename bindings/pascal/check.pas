{ Checks a description, as `tvdlg check FILE` does. }
program check;

{$mode objfpc}{$H+}

uses
  Classes, SysUtils, tvd;

function Contents(const Name: string): RawByteString;
begin
  with TFileStream.Create(Name, fmOpenRead or fmShareDenyNone) do
    try
      SetLength(Result, Size);
      if Size > 0 then
        ReadBuffer(Result[1], Size);
    finally
      Free;
    end;
end;

var
  Told: TTvdTold;
begin
  if ParamCount <> 1 then
  begin
    WriteLn(StdErr, 'usage: check FILE');
    Halt(TvdUsage);
  end;
  Told := TvdCheck(Contents(ParamStr(1)));
  Write(Told.Output);
  Write(StdErr, Told.Messages);
  Halt(Told.Status);
end.
