--  Two ends set up a session in one process, over capi/bindings/bekwidas.ads.
--  gnatmake -aI../bindings two_ends_ada.adb -largs -LDIR -lbekwidas
with Ada.Text_IO;
with Bekwidas; use Bekwidas;
with Interfaces.C; use Interfaces.C;
with Interfaces; use Interfaces;

procedure Two_Ends_Ada is
   Il, Fe : aliased Bek_End;
   S : aliased Settings;
   Refused : exception;

   --  Stops if a call was refused.
   procedure Must (Result : int) is
   begin
      if Result < 0 then
         raise Refused with int'Image (Result);
      end if;
   end Must;

   procedure Take_All (From : access Bek_End) is
      Payload : Octets (0 .. Payload_Max - 1);
      Kind : aliased Unsigned_16;
      Length : aliased size_t;
   begin
      while Take (From, Kind'Access, Payload'Address, Payload'Length, Length'Access) = Ok loop
         Ada.Text_IO.Put_Line ("ada: takes" & Unsigned_16'Image (Kind) & " with" & size_t'Image (Length) & " octets");
      end loop;
   end Take_All;

   procedure Pass (From, To : access Bek_End) is
      Buffer : Octets (0 .. Datagram_Max - 1);
      Channel : aliased Unsigned_32;
      Length : aliased size_t;
   begin
      while Next_Datagram (From, Channel'Access, Buffer'Address, Buffer'Length, Length'Access) = Ok loop
         Must (Arrive (To, Channel, Buffer'Address, Length, 0));
         Take_All (To);
      end loop;
   end Pass;

   procedure Name (Field : in out char_array; Text : String) is
   begin
      Field := (others => nul);
      for I in Text'Range loop
         Field (size_t (I - Text'First)) := To_C (Text (I));
      end loop;
   end Name;

   procedure Pass_Both is
   begin
      for Turn in 1 .. 4 loop
         Pass (Il'Access, Fe'Access);
         Pass (Fe'Access, Il'Access);
      end loop;
   end Pass_Both;

   Command : constant Octets := (16#0a#, 16#2a#);
begin
   Must (Init (S'Access, Settings_Size));
   S.Side := Field_Element; S.Id := 2; S.Peer_Id := 1; S.Protocol := 1; S.Version_Count := 1; S.Versions (0) := 3;
   Name (S.Name, "FE1"); Name (S.Peer_Name, "IL1");
   Must (Open (Fe'Access, S'Access, 0));
   S.Side := Interlocking; S.Id := 1; S.Peer_Id := 2;
   Name (S.Name, "IL1"); Name (S.Peer_Name, "FE1");
   Must (Open (Il'Access, S'Access, 0));
   Pass_Both;
   Must (Init_Done (Fe'Access, 0));
   Pass_Both;
   Must (Put (Il'Access, 16#0100#, Command'Address, Command'Length, 0));
   Pass_Both;
   Ada.Text_IO.Put_Line ("ada: il phase" & int'Image (Phase (Il'Access)) & ", fe phase" & int'Image (Phase (Fe'Access)));
   if Phase (Il'Access) /= 7 or else Phase (Fe'Access) /= 7 then
      raise Refused;
   end if;
   Must (Reopen (Il'Access, 4711, 0)); --  for another connection
   if Phase (Il'Access) /= 0 then
      raise Refused;
   end if;
   Free (Il'Access); Free (Fe'Access);
end Two_Ends_Ada;
